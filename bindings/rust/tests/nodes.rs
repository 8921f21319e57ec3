//! Events, frames and images of nodes. What is expected comes from docs/RULES.md and
//! docs/FORMATS.md of the repository.

use markring::{Age, Answer, Colour, Event, Events, Frame, Freed, Letter, Link, Node, Passed, Ref};
use markring::{Refusal, Result, Shape, Taken};

fn reference(node: u8, slot: u32, generation: u64) -> Ref {
    Ref {
        node,
        slot,
        generation,
    }
}

fn pair() -> Result<(Node, Node)> {
    Ok((Node::new(2, 4, 16, 0)?, Node::new(2, 4, 16, 1)?))
}

// Saves the node, and sends all its frames to the other one.
fn deliver(from: &Node, own: u8, to: &Node) -> Result<Vec<Taken>> {
    let image = from.image()?;
    from.kept(image.mark)?;
    let frames = from.frames(1 - own, 0)?;
    let taken = frames.iter().map(|frame| to.take(&frame.bytes)).collect();
    from.take(&to.ack_for(own)?)?;
    taken
}

#[test]
fn events_answer_as_the_rules_say() -> Result<()> {
    let (zero, _one) = pair()?;
    assert_eq!(zero.alloc(0, 2)?, reference(0, 0, 1));
    assert_eq!(zero.alloc(1, 0)?, reference(0, 1, 1));
    assert_eq!(zero.word(0)?, 0);
    zero.set_word(0, u64::MAX)?;
    assert_eq!(zero.word(0)?, u64::MAX);
    zero.store(0, 1, 1)?;
    assert_eq!(zero.load(2, 0, 1)?, Some(reference(0, 1, 1)));
    assert_eq!(zero.load(2, 0, 0)?, None);
    assert_eq!(zero.register(2)?, None);
    zero.copy(3, 0)?;
    assert_eq!(zero.register(3)?, Some(reference(0, 0, 1)));
    zero.clear(3, 1)?;
    assert_eq!(zero.load(2, 0, 1)?, None);
    zero.drop_register(3)?;
    assert_eq!(zero.give(1, 9, 1)?, 1);
    assert_eq!(zero.give(1, 10, 3)?, 2);
    let state = zero.state()?;
    assert_eq!((state.nodes, state.own, state.registers), (2, 0, 4));
    assert_eq!((state.slots, state.live, state.recent), (16, 2, 2));
    assert!(zero.unsaved()?);
    Ok(())
}

#[test]
fn refusals_come_in_the_order_of_the_tests() -> Result<()> {
    let (zero, _one) = pair()?;
    assert_eq!(zero.alloc(4, 9), Err(Refusal::NoRegister));
    assert_eq!(zero.alloc(0, 9), Err(Refusal::TooManyFields));
    assert_eq!(zero.copy(0, 1), Err(Refusal::EmptyRegister));
    assert_eq!(zero.drop_register(0), Err(Refusal::EmptyRegister));
    assert_eq!(zero.give(2, 0, 4), Err(Refusal::NoNode));
    assert_eq!(zero.give(0, 0, 4), Err(Refusal::SelfSend));
    assert_eq!(zero.give(1, 0, 4), Err(Refusal::NoRegister));
    assert_eq!(zero.accept(0), Err(Refusal::NoLetter));
    zero.alloc(0, 1)?;
    assert_eq!(zero.load(1, 0, 1), Err(Refusal::NoField));
    assert_eq!(zero.put(0, 0, 0), Err(Refusal::Local));
    assert_eq!(zero.get(1, 0, 0), Err(Refusal::EmptyRegister));
    assert_eq!(zero.scan(), Err(Refusal::NothingToDo));
    assert_eq!(zero.pass(), Err(Refusal::NothingToDo));
    assert_eq!(zero.sweep(1), Err(Refusal::NothingToDo));
    assert_eq!(zero.next(2), Err(Refusal::NoNode));
    assert_eq!(zero.next(1), Err(Refusal::NothingToDo));
    assert_eq!(zero.begin(), Ok(1));
    assert_eq!(zero.begin(), Err(Refusal::CycleRunning));
    assert_eq!(zero.link(0), Err(Refusal::NoNode));
    assert_eq!(zero.waiting(2), Err(Refusal::NoNode));
    assert_eq!(zero.frame_at(1, 32), Err(Refusal::BadArgument));
    Ok(())
}

#[test]
fn sizes_are_tested() {
    let new = |nodes, registers, slots, own| Node::new(nodes, registers, slots, own).err();
    assert_eq!(new(1, 1, 1, 0), Some(Refusal::BadArgument));
    assert_eq!(new(65, 1, 1, 0), Some(Refusal::BadArgument));
    assert_eq!(new(2, 0, 1, 0), Some(Refusal::BadArgument));
    assert_eq!(new(2, 257, 1, 0), Some(Refusal::BadArgument));
    assert_eq!(new(2, 1, 0, 0), Some(Refusal::BadArgument));
    assert_eq!(new(2, 1, 1_048_577, 0), Some(Refusal::BadArgument));
    assert_eq!(new(2, 1, 1, 2), Some(Refusal::NoNode));
    assert_eq!(new(64, 256, 1_048_576, 63), None);
}

#[test]
fn sizes_of_shapes_are_tested() {
    let new = |shape, own| Node::with_shape(shape, own, 0).err();
    let bad = Some(Refusal::BadArgument);
    assert_eq!(new(Shape::plain(2, 257, 1), 0), bad);
    assert_eq!(new(Shape::plain(2, 1, 1_048_577), 0), bad);
    assert_eq!(new(Shape::plain(64, 256, 1_048_576), 63), None);
    assert_eq!(new(Shape::wide(1, 1, 1, 0, 0), 0), bad);
    assert_eq!(new(Shape::wide(65, 1, 1, 0, 0), 0), bad);
    assert_eq!(new(Shape::wide(2, 0, 1, 0, 0), 0), bad);
    assert_eq!(new(Shape::wide(2, 1, 0, 0, 0), 0), bad);
    assert_eq!(new(Shape::wide(2, 1, 16_777_217, 0, 0), 0), bad);
    assert_eq!(new(Shape::wide(2, 1, 1, 0, 0), 2), Some(Refusal::NoNode));
    assert_eq!(
        new(Shape::wide(64, 65_535, 16_777_216, 255, 16_777_216), 63),
        None
    );
    let mut odd = Shape::plain(2, 1, 1);
    for places in [0, 7, 9, 255] {
        odd.places = places;
        assert_eq!(new(odd, 0), bad);
    }
}

#[test]
fn objects_of_wide_nodes_have_bytes() -> Result<()> {
    let node = Node::with_shape(Shape::wide(2, 2, 16, 1, 10), 0, 0)?;
    node.alloc(0, 1)?;
    assert_eq!((node.bytes_len(0)?, node.bytes(0)?), (0, Vec::new()));
    node.set_bytes(0, b"0123456789")?;
    node.patch(0, 3, &[0, 255])?;
    assert_eq!(node.bytes(0)?, b"012\0\xff56789");
    let mut three = [1; 3];
    node.read_bytes(0, 4, &mut three)?;
    assert_eq!(&three, b"\xff56");
    let again = Node::from_image(&node.image()?.bytes, 0)?;
    assert_eq!(again.bytes(0)?, node.bytes(0)?);
    assert_eq!(node.set_bytes(0, &[0; 11]), Err(Refusal::TooManyBytes));
    assert_eq!(node.patch(0, 9, &[0; 2]), Err(Refusal::NoBytes));
    assert_eq!(node.read_bytes(0, 8, &mut three), Err(Refusal::NoBytes));
    assert_eq!(node.bytes(1), Err(Refusal::EmptyRegister));
    assert_eq!(&three, b"\xff56");
    let plain = Node::new(2, 1, 1, 0)?;
    plain.alloc(0, 0)?;
    assert_eq!(plain.set_bytes(0, &[]), Err(Refusal::TooManyBytes));
    assert_eq!(plain.patch(0, 0, &[]), Err(Refusal::NoBytes));
    Ok(())
}

#[test]
fn wide_nodes_have_more_registers_and_places() -> Result<()> {
    let shape = Shape::wide(2, 65_535, 16_777_216, 255, 16_777_216);
    let zero = Node::with_shape(shape, 0, 0)?;
    let one = Node::with_shape(shape, 1, 0)?;
    let object = zero.alloc(65_534, 255)?;
    assert_eq!(zero.alloc(65_535, 0), Err(Refusal::NoRegister));
    zero.store(65_534, 254, 65_534)?;
    assert_eq!(zero.load(0, 65_534, 254)?, Some(object));
    assert_eq!(zero.load(0, 65_534, 255), Err(Refusal::NoField));
    let state = zero.state()?;
    assert_eq!((state.registers, state.slots), (65_535, 16_777_216));
    assert_eq!((state.places, state.is_wide), (255, true));
    // Another node asks for the last place.
    zero.give(1, 7, 65_534)?;
    assert_eq!(deliver(&zero, 0, &one)?, [Taken::Received]);
    one.accept(65_534)?;
    assert_eq!(one.get(65_534, 255, 8), Err(Refusal::NoField));
    one.get(65_534, 254, 8)?;
    let image = one.image()?;
    one.kept(image.mark)?;
    let frames = one.frames(0, 0)?;
    assert_eq!(frames[0].bytes[0], 0x46);
    let plain = Node::new(2, 1, 1, 0)?;
    assert_eq!(plain.take(&frames[0].bytes), Err(Refusal::WrongNode));
    assert_eq!(deliver(&one, 1, &zero)?, [Taken::Received]);
    assert_eq!(deliver(&zero, 0, &one)?, [Taken::Repeat, Taken::Received]);
    assert_eq!(one.accept(0)?.reference, Some(object));
    // The image is read as that of a wide node.
    let again = Node::from_image(&zero.image()?.bytes, 0)?;
    assert_eq!(again.state()?, zero.state()?);
    let plain = plain.state()?;
    assert_eq!((plain.places, plain.is_wide), (8, false));
    Ok(())
}

#[test]
fn all_objects_can_be_looked_at() -> Result<()> {
    let node = Node::with_shape(Shape::wide(2, 2, 16, 3, 10), 0, 0)?;
    assert_eq!((node.slots()?, node.objects()?.count()), (0, 0));
    let old = node.alloc(0, 1)?;
    node.alloc(1, 3)?;
    assert_eq!(node.reclaim()?, 0);
    node.drop_register(1)?;
    let young = node.alloc(1, 0)?;
    node.set_bytes(1, b"any bytes")?;
    node.set_word(1, 77)?;
    node.store(0, 0, 1)?;
    node.give(1, 7, 0)?;
    // The second object is garbage now. The third one is young, and an old one refers to it.
    let all = node.objects()?.collect::<Result<Vec<_>>>()?;
    let names: Vec<Ref> = all.iter().map(|it| it.reference).collect();
    assert_eq!(names, [old, reference(0, 1, 1), young]);
    assert_eq!((all[0].places, all[1].places, all[2].places), (1, 3, 0));
    assert_eq!((all[0].word, all[2].word, all[2].bytes), (0, 77, 9));
    let ages: Vec<Age> = all.iter().map(|it| it.age).collect();
    assert_eq!(ages, [Age::Old, Age::Old, Age::Remembered]);
    let shared: Vec<bool> = all.iter().map(|it| it.is_shared).collect();
    assert_eq!(shared, [true, false, false]);
    assert!(all.iter().all(|it| it.is_marked));

    assert_eq!(node.place(0, 0)?, Some(young));
    assert_eq!(node.place(1, 2)?, None);
    assert_eq!(node.place(1, 3), Err(Refusal::NoField));
    assert_eq!(node.place(3, 0), Err(Refusal::NoField));
    let mut bytes = [0; 5];
    node.read_bytes_at(2, 4, &mut bytes)?;
    assert_eq!(&bytes, b"bytes");
    let refused = |slot, offset| node.read_bytes_at(slot, offset, &mut [0; 5]).err();
    assert_eq!(refused(2, 5), Some(Refusal::NoBytes));
    assert_eq!(refused(3, 0), Some(Refusal::NoField));
    assert_eq!(node.object(3)?, None);

    assert_eq!(node.reclaim()?, 1);
    assert_eq!((node.slots()?, node.object(1)?), (3, None));
    assert_eq!(node.objects()?.count(), 2);
    // A cycle marks what registers hold, what is made, and what a scan finds.
    node.drop_register(1)?;
    node.begin()?;
    node.alloc(1, 0)?;
    let marked = || -> Result<Vec<bool>> { node.objects()?.map(|it| Ok(it?.is_marked)).collect() };
    assert_eq!(marked()?, [true, true, false]);
    node.scan()?;
    assert_eq!(marked()?, [true, true, true]);
    Ok(())
}

#[test]
fn events_as_values_answer_the_same() -> Result<()> {
    let (zero, one) = pair()?;
    let object = reference(0, 0, 1);
    #[rustfmt::skip]
    let expected = [
        (Event::Alloc { register: 0, places: 2 }, Answer::New(object)),
        (Event::Copy { register: 1, source: 0 }, Answer::Done),
        (Event::Store { object: 0, place: 0, register: 1 }, Answer::Done),
        (Event::Load { register: 2, object: 1, place: 0 }, Answer::Value(Some(object))),
        (Event::Clear { object: 2, place: 0 }, Answer::Done),
        (Event::Load { register: 2, object: 1, place: 0 }, Answer::Value(None)),
        (Event::SetWord { object: 0, word: 77 }, Answer::Done),
        (Event::Word { object: 1 }, Answer::Word(77)),
        (Event::Drop { register: 1 }, Answer::Done),
        (Event::Give { to: 1, label: 3, register: 0 }, Answer::Sent(1)),
    ];
    for (event, answer) in expected {
        assert_eq!(zero.act(event)?, answer);
    }
    assert_eq!(deliver(&zero, 0, &one)?, [Taken::Received]);
    let letter = Letter {
        from: 0,
        label: 3,
        reference: Some(object),
        registers: 1,
        bytes: 0,
    };
    #[rustfmt::skip]
    let expected = [
        (Event::Accept { register: 0 }, Answer::Letter(letter)),
        (Event::Put { object: 0, place: 1, register: 0 }, Answer::Sent(1)),
        (Event::Get { object: 0, place: 1, label: 4 }, Answer::Sent(2)),
    ];
    for (event, answer) in expected {
        assert_eq!(one.act(event)?, answer);
    }
    assert_eq!(one.act(Event::Begin), Err(Refusal::NotDirector));
    Ok(())
}

#[test]
fn a_cycle_frees_what_no_program_reaches() -> Result<()> {
    let (zero, one) = pair()?;
    zero.alloc(0, 0)?;
    zero.drop_register(0)?;
    one.alloc(0, 0)?;
    assert_eq!(zero.act(Event::Begin)?, Answer::Begun(1));
    assert_eq!(deliver(&zero, 0, &one)?, [Taken::Received, Taken::Received]);
    // Joining shades the register's object.
    assert_eq!(one.pass(), Err(Refusal::NothingToDo));
    assert_eq!(one.scan()?, reference(1, 0, 1));
    let black = Passed::On {
        colour: Colour::Black,
        sum: 0,
    };
    assert_eq!(one.pass()?, black);
    deliver(&one, 1, &zero)?;
    assert_eq!(zero.pass()?, Passed::Again);
    deliver(&zero, 0, &one)?;
    let white = Passed::On {
        colour: Colour::White,
        sum: 0,
    };
    assert_eq!(one.pass()?, white);
    deliver(&one, 1, &zero)?;
    assert_eq!(zero.pass()?, Passed::Ended(1));
    let freed = Freed {
        count: 1,
        done: true,
    };
    assert_eq!(zero.sweep(16)?, freed);
    deliver(&zero, 0, &one)?;
    let freed = Freed {
        count: 0,
        done: true,
    };
    assert_eq!(one.sweep(16)?, freed);
    deliver(&one, 1, &zero)?;
    assert_eq!(zero.begin()?, 2);
    Ok(())
}

// A window with letters of many bytes: all frames come, and each alone.
#[test]
fn a_window_has_the_frames_of_long_letters() -> Result<()> {
    let shape = Shape::wide(2, 300, 16, 255, 70_000);
    let (zero, one) = (
        Node::with_shape(shape, 0, 0)?,
        Node::with_shape(shape, 1, 0)?,
    );
    let texts: Vec<Vec<u8>> = [3, 65_535, 0, 2_000].map(|it| vec![it as u8; it]).into();
    for (label, text) in (0..).zip(&texts) {
        zero.post(1, label, 0, label as u8 * 80, text)?;
    }
    zero.give(1, 9, 0)?;
    zero.release()?;
    let frames = zero.frames(1, 0)?;
    let numbers: Vec<u64> = frames.iter().map(|it| it.number).collect();
    assert_eq!(numbers, [1, 2, 3, 4, 5]);
    // The head has 20 bytes, the label 4, the two lengths 5.
    assert_eq!(frames[1].bytes.len(), 20 + 4 + 1 + 80 + 4 + 65_535);
    for (place, frame) in (0..).zip(&frames) {
        assert_eq!(zero.frame_at(1, place)?.as_ref(), Some(&frame.bytes));
    }
    assert_eq!(zero.frame_at(1, 5)?, None);
    assert_eq!(zero.frames(1, 2)?, frames[2..]);
    assert_eq!(zero.frames(1, 5)?, []);
    for frame in &frames {
        assert_eq!(one.take(&frame.bytes)?, Taken::Received);
    }
    for (label, text) in (0..).zip(&texts) {
        let (letter, bytes) = one.accept_with_bytes(0)?;
        assert!(letter.label == label && bytes == *text);
        assert_eq!(letter.registers, (80 * label).max(1));
    }
    one.release()?;
    zero.take(&one.ack_for(0)?)?;
    assert_eq!(zero.frames(1, 0)?, []);
    zero.post(1, 7, 0, 0, &texts[1])?;
    zero.release()?;
    assert_eq!(zero.frames(1, 0)?[0].number, 6);
    Ok(())
}

#[test]
fn early_frames_wait_for_their_turn() -> Result<()> {
    let (zero, one) = pair()?;
    for label in 0..3 {
        zero.give(1, label, 0)?;
    }
    let image = zero.image()?;
    zero.kept(image.mark)?;
    let frames = zero.frames(1, 0)?;
    assert_eq!(one.take(&frames[1].bytes)?, Taken::Early);
    assert_eq!(one.waiting(0)?, None);
    assert_eq!(one.take(&frames[0].bytes)?, Taken::Received);
    assert_eq!(one.take(&frames[0].bytes)?, Taken::Repeat);
    assert_eq!(one.waiting(0)?, Some(2));
    one.next(0)?;
    assert_eq!(one.accept(0)?.label, 0);
    assert_eq!(one.accept(0)?.label, 1);
    assert_eq!(zero.frames(1, 2)?.len(), 1);
    assert_eq!(zero.frame_at(1, 2)?.as_ref(), Some(&frames[2].bytes));
    assert_eq!(zero.frame_at(1, 3)?, None);
    assert_eq!(one.take(&frames[2].bytes[1..]), Err(Refusal::BadFrame));
    assert_eq!(zero.take(&frames[2].bytes), Err(Refusal::WrongNode));
    Ok(())
}

#[test]
fn frames_are_spelled_as_the_formats_say() -> Result<()> {
    let (zero, _one) = pair()?;
    zero.alloc(0, 0)?;
    zero.give(1, 7, 0)?;
    let image = zero.image()?;
    zero.kept(image.mark)?;
    // Give with label 7 and reference 0.0.1, from 0 to 1, number 1, stamp 0.
    let bytes = [
        vec![0x45, 0, 1],
        vec![0, 0, 0, 0, 0, 0, 0, 1],
        vec![0; 8],
        vec![4, 0, 0, 0, 7, 1, 0, 0, 0, 0, 0],
        vec![0, 0, 0, 0, 0, 0, 0, 1],
    ];
    let bytes = bytes.concat();
    assert_eq!(zero.frames(1, 0)?, [Frame { number: 1, bytes }]);
    assert_eq!(zero.ack_for(1)?, [0x42, 0, 1, 0, 0, 0, 0, 0, 0, 0, 0]);
    Ok(())
}

#[test]
fn kept_releases_what_the_image_holds() -> Result<()> {
    let (zero, one) = pair()?;
    zero.give(1, 1, 0)?;
    let image = zero.image()?;
    zero.give(1, 2, 0)?;
    assert_eq!(zero.kept(image.mark + 1), Err(Refusal::WrongMark));
    zero.kept(image.mark)?;
    assert!(zero.unsaved()?);
    let link = Link {
        appended: 2,
        released: 1,
        ..Link::default()
    };
    assert_eq!(zero.link(1)?, link);
    assert_eq!(zero.frames(1, 0)?.len(), 1);
    let later = zero.image()?;
    assert_eq!(zero.kept(image.mark), Err(Refusal::WrongMark));
    zero.kept(later.mark)?;
    assert!(!zero.unsaved()?);
    assert_eq!(zero.frames(1, 0)?.len(), 2);

    // A crash: the node continues from the first image, which holds one letter.
    let again = Node::from_image(&image.bytes, 0)?;
    assert_eq!(again.link(1)?.appended, 1);
    for frame in again.frames(1, 0)? {
        assert_eq!(one.take(&frame.bytes)?, Taken::Received);
    }
    assert_eq!(
        Node::from_image(&image.bytes[1..], 0).err(),
        Some(Refusal::BadImage)
    );
    Ok(())
}

#[test]
fn batches_lead_on_from_an_image() -> Result<()> {
    let (zero, one) = pair()?;
    assert_eq!(zero.batch(), Err(Refusal::NoLog));
    zero.log(true)?;
    let image = zero.image()?;
    assert_eq!(zero.batch_size(), Err(Refusal::NoLog));
    zero.kept(image.mark)?;
    zero.alloc(0, 1)?;
    zero.give(1, 7, 0)?;
    let mut batches = Vec::new();
    let batch = zero.batch()?;
    // What happens in between is in the next batch.
    zero.set_word(0, 5)?;
    zero.kept(batch.mark)?;
    assert!(zero.unsaved()?);
    batches.extend_from_slice(&batch.bytes);
    for frame in zero.frames(1, 0)? {
        assert_eq!(one.take(&frame.bytes)?, Taken::Received);
    }
    let batch = zero.batch()?;
    assert_eq!(
        batch.bytes,
        [&[0, 0, 0, 0, 0, 0, 0, 11, 8, 0, 0][..], &[0; 7], &[5]].concat()
    );
    assert_eq!(zero.batch(), Err(Refusal::NoLog));
    zero.kept(batch.mark)?;
    assert_eq!(zero.kept(batch.mark - 1), Err(Refusal::WrongMark));
    batches.extend_from_slice(&batch.bytes);

    let again = Node::from_batches(&image.bytes, &batches, 0)?;
    assert_eq!((again.word(0)?, again.link(1)?.released), (5, 1));
    assert_eq!(again.batch()?.bytes, [0; 8]);
    let refused = |batches| Node::from_batches(&image.bytes, batches, 0).err();
    assert_eq!(refused(&batches[1..]), Some(Refusal::BadImage));
    assert_eq!(
        Node::from_image(&image.bytes, 0).err(),
        Some(Refusal::BadImage)
    );
    zero.log(false)?;
    let image = zero.image()?;
    assert_eq!(Node::from_image(&image.bytes, 0)?.word(0)?, 5);
    Ok(())
}

#[test]
fn a_release_needs_no_image() -> Result<()> {
    let (zero, one) = pair()?;
    zero.give(1, 1, 0)?;
    assert_eq!(zero.frames(1, 0)?, []);
    zero.release()?;
    assert!(!zero.unsaved()?);
    for frame in zero.frames(1, 0)? {
        assert_eq!(one.take(&frame.bytes)?, Taken::Received);
    }
    assert_eq!(one.link(0)?.received_saved, 0);
    one.release()?;
    assert_eq!(one.link(0)?.received_saved, 1);
    Ok(())
}

#[test]
fn a_limit_bounds_what_is_not_acknowledged() -> Result<()> {
    let zero = Node::with_limit(2, 4, 16, 0, 2)?;
    let one = Node::new(2, 4, 16, 1)?;
    zero.give(1, 1, 0)?;
    zero.give(1, 2, 0)?;
    assert_eq!(zero.give(1, 3, 9), Err(Refusal::Congested));
    deliver(&zero, 0, &one)?;
    assert_eq!(zero.give(1, 3, 0), Err(Refusal::Congested));
    let image = one.image()?;
    one.kept(image.mark)?;
    zero.take(&one.ack_for(0)?)?;
    assert_eq!(zero.give(1, 3, 0)?, 3);
    Ok(())
}

#[test]
fn a_node_moves_to_another_thread() -> Result<()> {
    let node = Node::new(2, 4, 16, 0)?;
    node.alloc(0, 0)?;
    let node = std::thread::spawn(move || {
        node.set_word(0, 3).unwrap();
        node
    })
    .join()
    .unwrap();
    assert_eq!(node.word(0)?, 3);
    Ok(())
}
