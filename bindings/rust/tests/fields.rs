//! Each field of each value that crosses has a number of its own, so that none can show another's.
//! The images and frames are spelled here as docs/FORMATS.md of the repository says.

use markring::{
    Age, Answer, Colour, Event, Events, Freed, Letter, Link, Node, Object, Passed, Ref,
};
use markring::{Refusal, Result, Shape, Space, State, Stopped, Taken, Work};
use spelling::spelled;

mod spelling;

const LABEL: u64 = 0xA1B2_C3D4;
const WORD: u64 = 0x0102_0304_0506_0708;
const GENERATION: u64 = 1 << 40;
const TEXT: &[u8] = b"hello\0world";
// The last message that node 2 has acknowledged.
const FAR: u64 = 0x0607_0809_0A0B;

// What the images below differ in.
struct Phase {
    ended: u64,
    is_black: bool,
    has_token: bool,
    grey: u64,
}

const MARKING: Phase = Phase {
    ended: 40,
    is_black: true,
    has_token: false,
    grey: 2,
};
const WITH_TOKEN: Phase = Phase {
    ended: 40,
    is_black: false,
    has_token: true,
    grey: 0,
};
const MARKED: Phase = Phase {
    ended: 41,
    is_black: true,
    has_token: false,
    grey: 0,
};

fn head(phase: &Phase) -> Vec<u8> {
    let mut image = spelled(&[(3, 0x4D_5204), (1, 9), (4, 17)]);
    image.extend(spelled(&[(1, 3), (1, 1), (2, 300), (4, 70_000)]));
    image.extend(spelled(&[(8, 41), (8, phase.ended), (8, 40), (4, 0)]));
    image.extend(spelled(&[(1, u64::from(phase.is_black))]));
    image.extend(spelled(&[(8, -23_i64 as u64), (8, 29)]));
    if phase.has_token {
        // The token is white, and its sum is 1,000.
        image.extend(spelled(&[(1, 1), (1, 0), (8, 1_000)]));
    } else {
        image.push(0);
    }
    image
}

// Four objects: one with places and bytes, one that is shared and remembered, two young ones.
fn slots() -> Vec<u8> {
    let mut image = spelled(&[(4, 5), (1, 3), (8, GENERATION), (8, 41), (8, WORD), (4, 6)]);
    image.extend(b"abcdef");
    image.extend([vec![5], vec![0; 4]].concat());
    image.extend(spelled(&[(1, 1), (1, 2), (4, 65_999), (8, 33)]));
    let rest = [
        vec![(1, 7), (8, 78), (8, 40), (8, 11), (4, 2), (2, 0), (1, 1)],
        vec![(1, 0), (1, 0), (8, 90)],
        vec![(1, 4), (8, 79), (8, 41), (8, 13), (4, 0), (1, 0)],
        vec![(1, 4), (8, 80), (8, 40), (8, 14), (4, 0), (1, 0)],
    ];
    image.extend(spelled(&rest.concat()));
    image.extend(spelled(&[(4, 1), (4, 2)]));
    image
}

// A letter of three references, the second of which is nothing, and eleven bytes; then four of none.
// Each part says how many follow it, and how many bytes it has.
fn letters() -> Vec<u8> {
    let sender = [(1, 2), (4, LABEL)];
    let first = [(1, 1), (1, 0), (4, 66_002), (8, 35), (1, 2), (4, 11)];
    let mut letters = spelled(&[&sender[..], &first].concat());
    letters.extend(TEXT);
    let second = [(1, 0), (1, 1), (4, 0)];
    let third = [(1, 1), (1, 2), (4, 66_003), (8, 36), (1, 0), (4, 0)];
    letters.extend(spelled(&[&sender[..], &second, &sender, &third].concat()));
    letters.extend(spelled(&[(1, 0), (4, 8), (1, 0), (1, 0), (4, 0)].repeat(4)));
    letters
}

// Node 1 of three in a wide space, in cycle 41.
fn image(phase: &Phase) -> Vec<u8> {
    let mut image = head(phase);
    image.extend([0; 299]);
    image.extend(spelled(&[(1, 1), (1, 2), (4, 66_001), (8, 34)]));
    image.extend(slots());
    image.extend(spelled(
        &[(4, phase.grey), (4, 0), (4, 3)][..1 + phase.grey as usize],
    ));
    image.extend(spelled(&[(4, 0), (4, 7)]));
    image.extend(letters());
    // The links: two letters without a reference wait for node 0.
    image.extend(spelled(&[(8, 50), (4, 2)]));
    image.extend(spelled(&[(8, 41), (1, 4), (4, 1), (1, 0)].repeat(2)));
    image.extend(spelled(&[(8, 60), (8, FAR), (4, 0), (8, 200)]));
    image
}

fn node(phase: &Phase) -> Result<Node> {
    Node::from_image(&image(phase), 0)
}

fn reference(node: u8, slot: u32, generation: u64) -> Ref {
    Ref {
        node,
        slot,
        generation,
    }
}

// The object in the first slot, which cycle 41 has marked.
const KEPT: Ref = Ref {
    node: 1,
    slot: 0,
    generation: GENERATION,
};

const STATE: State = State {
    nodes: 3,
    own: 1,
    registers: 300,
    slots: 70_000,
    places: 9,
    bytes: 17,
    is_wide: true,
    live: 4,
    cycle: 41,
    ended: 40,
    swept: 40,
    colour: Colour::Black,
    has_token: false,
    earlier: -23,
    recent: 29,
    grey: 2,
    letters: 7,
};

#[test]
fn a_state_shows_each_number_of_the_image() -> Result<()> {
    assert_eq!(node(&MARKING)?.state()?, STATE);
    let with_token = State {
        colour: Colour::White,
        has_token: true,
        grey: 0,
        ..STATE
    };
    assert_eq!(node(&WITH_TOKEN)?.state()?, with_token);
    let marked = State {
        ended: 41,
        grey: 0,
        ..STATE
    };
    assert_eq!(node(&MARKED)?.state()?, marked);
    // Node 0 of a plain space becomes white when it sends the token on.
    let plain = Node::new(5, 7, 11, 0)?;
    plain.begin()?;
    let state = State {
        nodes: 5,
        own: 0,
        registers: 7,
        slots: 11,
        places: 8,
        bytes: 0,
        is_wide: false,
        live: 0,
        cycle: 1,
        ended: 0,
        swept: 0,
        colour: Colour::White,
        has_token: false,
        earlier: 0,
        recent: 0,
        grey: 0,
        letters: 0,
    };
    assert_eq!(plain.state()?, state);
    Ok(())
}

#[test]
fn an_object_shows_each_number_of_the_image() -> Result<()> {
    let node = node(&MARKING)?;
    let shown = |slot| node.object(slot).map(|it| it.map(|it| parts(&it)));
    let first = reference(1, 0, GENERATION);
    assert_eq!(shown(0)?, Some((first, WORD, 5, 6, true, false, Age::Old)));
    let second = reference(1, 1, 78);
    assert_eq!(
        shown(1)?,
        Some((second, 11, 1, 2, false, true, Age::Remembered))
    );
    assert_eq!(shown(2)?, None);
    let fourth = reference(1, 3, 79);
    assert_eq!(shown(3)?, Some((fourth, 13, 0, 0, true, false, Age::Young)));
    let fifth = reference(1, 4, 80);
    assert_eq!(shown(4)?, Some((fifth, 14, 0, 0, false, false, Age::Young)));
    assert_eq!((node.slots()?, shown(5)?), (5, None));
    assert_eq!(node.place(0, 4)?, Some(reference(2, 65_999, 33)));
    assert_eq!(node.place(0, 3)?, None);
    let mut bytes = [0; 3];
    node.read_bytes_at(0, 2, &mut bytes)?;
    assert_eq!(&bytes, b"cde");
    assert_eq!(node.register(299)?, Some(reference(2, 66_001, 34)));
    assert_eq!(node.register(298)?, None);
    // The new object gets the slot and the generation of the free one.
    assert_eq!(node.alloc(7, 3)?, reference(1, 2, 90));
    Ok(())
}

type Parts = (Ref, u64, u8, u32, bool, bool, Age);

fn parts(it: &Object) -> Parts {
    let (is_marked, is_shared) = (it.is_marked, it.is_shared);
    (
        it.reference,
        it.word,
        it.places,
        it.bytes,
        is_marked,
        is_shared,
        it.age,
    )
}

#[test]
fn a_letter_shows_each_number_of_the_image() -> Result<()> {
    let first = Letter {
        from: 2,
        label: LABEL as u32,
        reference: Some(reference(0, 66_002, 35)),
        registers: 3,
        bytes: 11,
    };
    let second = Letter {
        from: 0,
        label: 8,
        reference: None,
        registers: 1,
        bytes: 0,
    };
    let accepted = |node: Node| -> Result<()> {
        let third = reference(2, 66_003, 36);
        assert_eq!(node.register(5)?, first.reference);
        assert_eq!([node.register(6)?, node.register(7)?], [None, Some(third)]);
        let accepts = Event::Accept { register: 5 };
        assert_eq!(node.act(accepts)?, Answer::Letter(second));
        assert_eq!(node.letter()?, second);
        assert_eq!(node.letter_bytes()?, b"");
        assert_eq!(node.accept_with_bytes(7)?, (second, Vec::new()));
        Ok(())
    };
    let one = node(&MARKED)?;
    assert_eq!((one.letter()?, one.letter_bytes()?), (first, TEXT.to_vec()));
    assert_eq!(one.accept(5)?, first);
    accepted(one)?;
    let other = node(&MARKED)?;
    assert_eq!(other.accept_with_bytes(5)?, (first, TEXT.to_vec()));
    accepted(other)?;
    let (third, mut bytes) = (node(&MARKED)?, vec![9; 30]);
    assert_eq!(
        third.act(Event::Accept { register: 5 })?,
        Answer::Letter(first)
    );
    accepted(third)?;
    let last = node(&MARKED)?;
    assert_eq!(
        (last.accept_into(5, &mut bytes)?, &bytes[..]),
        (first, TEXT)
    );
    assert_eq!(
        (last.accept_into(7, &mut bytes)?, &bytes[..]),
        (second, &b""[..])
    );
    Ok(())
}

// The frame of the first message that the node sends to node 2.
fn sent_frame(node: &Node) -> Result<Vec<u8>> {
    node.release()?;
    Ok(node.frames(2, FAR)?.remove(0).bytes)
}

#[test]
fn a_letter_and_a_fetch_are_sent_with_each_number() -> Result<()> {
    let head = [(1, 0x46), (1, 1), (1, 2), (8, FAR + 1), (8, 41)];
    let label = LABEL as u32;
    let posting = node(&MARKED)?;
    assert_eq!(posting.post(2, label, 298, 2, TEXT)?, FAR + 1);
    // Nothing, and the reference in register 299.
    let references = [(1, 2), (1, 0), (1, 1), (1, 2), (4, 66_001), (8, 34)];
    let expected = [&head[..], &[(1, 9), (4, LABEL)], &references, &[(4, 11)]].concat();
    assert_eq!(sent_frame(&posting)?, [&spelled(&expected), TEXT].concat());
    let fetching = node(&MARKED)?;
    assert_eq!(fetching.fetch(299, label, 0x0102_0304, 0x0506)?, FAR + 1);
    let range = [
        (1, 2),
        (4, 66_001),
        (8, 34),
        (4, LABEL),
        (4, 0x0102_0304),
        (4, 0x0506),
    ];
    let expected = [&head[..], &[(1, 10)], &range].concat();
    assert_eq!(sent_frame(&fetching)?, spelled(&expected));
    Ok(())
}

// What comes to a fetch of an object whose word has a byte of each kind: the word, the word and a
// range of the bytes, the word alone if it hasn't all of the range.
#[test]
fn a_fetch_brings_the_word_and_the_range() -> Result<()> {
    let shape = Shape::wide(2, 4, 16, 2, 40);
    let (zero, one) = (
        Node::with_shape(shape, 0, 0)?,
        Node::with_shape(shape, 1, 0)?,
    );
    zero.alloc(0, 0)?;
    zero.set_word(0, WORD)?;
    zero.set_bytes(0, b"0123456789")?;
    zero.give(1, 1, 0)?;
    let flush = |from: &Node, own: u8, to: &Node| -> Result<()> {
        from.release()?;
        for frame in from.frames(1 - own, 0)? {
            to.take(&frame.bytes)?;
        }
        to.release()?;
        from.take(&to.ack_for(own)?).map(drop)
    };
    flush(&zero, 0, &one)?;
    one.accept(3)?;
    let word = WORD.to_be_bytes();
    let ranges = [
        (0, 0, &b""[..]),
        (3, 4, b"3456"),
        (0, 10, b"0123456789"),
        (4, 7, b""),
    ];
    for (label, (offset, count, bytes)) in (10..).zip(ranges) {
        one.fetch(3, label, offset, count)?;
        flush(&one, 1, &zero)?;
        flush(&zero, 0, &one)?;
        let (letter, found) = one.accept_with_bytes(0)?;
        assert_eq!(found, [&word, bytes].concat());
        let parts = (
            letter.from,
            letter.label,
            letter.reference,
            letter.registers,
        );
        assert_eq!((parts, letter.bytes), ((0, label, None, 1), found.len()));
    }
    Ok(())
}

// A letter without a reference, from node 0.
fn frame(number: u64) -> Vec<u8> {
    spelled(&[
        (1, 0x45),
        (1, 0),
        (1, 1),
        (8, number),
        (8, 41),
        (1, 4),
        (4, 6),
        (1, 0),
    ])
}

#[test]
fn a_link_shows_each_number_of_its_own() -> Result<()> {
    let node = node(&MARKED)?;
    for number in 53..=55 {
        assert_eq!(node.give(0, 3, 1)?, number);
    }
    for number in 61..=64 {
        assert_eq!(node.take(&frame(number))?, Taken::Received);
    }
    let link = Link {
        appended: 55,
        released: 52,
        acknowledged: 50,
        received: 64,
        received_saved: 60,
    };
    assert_eq!(node.link(0)?, link);
    let other = Link {
        appended: FAR,
        released: FAR,
        acknowledged: FAR,
        received: 200,
        received_saved: 200,
    };
    assert_eq!(node.link(2)?, other);
    let numbers: Vec<u64> = node.frames(0, 0)?.iter().map(|it| it.number).collect();
    assert_eq!(numbers, [51, 52]);
    assert_eq!(node.frames(0, 51)?[0].number, 52);
    assert_eq!(
        node.ack_for(0)?,
        spelled(&[(1, 0x42), (1, 1), (1, 0), (8, 60)])
    );
    assert_eq!(node.give(2, 3, 1)?, FAR + 1);
    node.release()?;
    assert_eq!(node.frames(2, FAR)?[0].number, FAR + 1);
    // Two early messages: the second waits until the first is received.
    assert_eq!(node.take(&frame(66))?, Taken::Early);
    assert_eq!(node.take(&frame(65))?, Taken::Received);
    assert_eq!((node.waiting(0)?, node.waiting(2)?), (Some(66), None));
    Ok(())
}

#[test]
fn an_answer_shows_each_number_of_its_own() -> Result<()> {
    // The token's sum was 1,000, and the node's `earlier` is -23.
    let white = Passed::On {
        colour: Colour::White,
        sum: 977,
    };
    assert_eq!(node(&WITH_TOKEN)?.pass()?, white);
    assert_eq!(node(&WITH_TOKEN)?.act(Event::Pass)?, Answer::Passed(white));
    // Of the slots up to the fourth, the second has an object without the mark of cycle 41.
    let (some, all) = (Event::Sweep { count: 4 }, Event::Sweep { count: 9 });
    let freed = |count, done| Freed { count, done };
    let node = node(&MARKED)?;
    assert_eq!(node.sweep(4)?, freed(1, false));
    assert_eq!(node.sweep(9)?, freed(1, true));
    let again = Node::from_image(&image(&MARKED), 0)?;
    assert_eq!(again.act(some)?, Answer::Freed(freed(1, false)));
    assert_eq!(again.act(all)?, Answer::Freed(freed(1, true)));
    let whole = Node::from_image(&image(&MARKED), 0)?;
    assert_eq!(whole.sweep(5)?, freed(2, true));
    Ok(())
}

// Takes two early frames of node 0, and the one that comes before them.
fn take_early(node: &Node) -> Result<()> {
    for number in [63, 62, 61] {
        node.take(&frame(number))?;
    }
    Ok(())
}

#[test]
fn work_shows_each_number_of_its_own() -> Result<()> {
    let none = Work {
        received: 0,
        scanned: 0,
        passed: false,
        freed: None,
        more: false,
    };
    // Two objects are grey. Limits are whole numbers.
    let grey = node(&MARKING)?;
    take_early(&grey)?;
    let some = Work {
        received: 2,
        scanned: 1,
        more: true,
        ..none
    };
    assert_eq!(grey.work(1, 9), Ok(some));
    assert_eq!(grey.work(65_536, 65_536), Ok(Work { scanned: 1, ..none }));
    assert_eq!(grey.work(9, 9), Ok(none));
    let all = Work { scanned: 2, ..none };
    assert_eq!(node(&MARKING)?.work(256, 9), Ok(all));
    let nothing = Work { more: true, ..none };
    assert_eq!(node(&MARKING)?.work(0, 9), Ok(nothing));
    let passed = Work {
        passed: true,
        ..none
    };
    assert_eq!(node(&WITH_TOKEN)?.work(9, 9), Ok(passed));
    let freed = |freed, more| Work {
        freed: Some(freed),
        more,
        ..none
    };
    let marked = node(&MARKED)?;
    assert_eq!(marked.work(9, 0), Ok(nothing));
    assert_eq!(marked.work(9, 1), Ok(freed(0, true)));
    assert_eq!(marked.work(9, 3), Ok(freed(1, true)));
    assert_eq!(marked.work(9, 256), Ok(freed(1, false)));
    for slots in [65_536, u32::MAX] {
        assert_eq!(node(&MARKED)?.work(9, slots), Ok(freed(2, false)));
    }
    Ok(())
}

#[test]
fn work_that_is_refused_shows_what_it_did() -> Result<()> {
    let node = node(&MARKING)?;
    // The stamp of the third message is one that no node can have yet.
    let mut late = frame(64);
    late[18] = 99;
    assert_eq!(node.take(&late)?, Taken::Early);
    take_early(&node)?;
    let done = Work {
        received: 2,
        scanned: 0,
        passed: false,
        freed: None,
        more: true,
    };
    let refusal = Refusal::WrongNode;
    let stopped = Stopped { refusal, done };
    assert_eq!(node.work(9, 9), Err(stopped));
    assert_eq!(stopped.to_string(), refusal.to_string());
    assert_eq!(Refusal::from(stopped), refusal);
    assert_eq!(node.work(9, 9)?.scanned, 2);
    Ok(())
}

#[test]
fn a_reclaim_shows_how_many_it_freed() -> Result<()> {
    // No root leads to the private objects: an old one and two young ones.
    assert_eq!(node(&MARKED)?.reclaim()?, 3);
    assert_eq!(node(&MARKED)?.act(Event::Reclaim)?, Answer::Reclaimed(3));
    assert_eq!(node(&MARKED)?.reclaim_young()?, 2);
    assert_eq!(
        node(&MARKED)?.act(Event::ReclaimYoung)?,
        Answer::Reclaimed(2)
    );
    Ok(())
}

#[test]
fn a_shape_keeps_each_number() -> Result<()> {
    let shape = Shape::wide(6, 301, 70_001, 10, 18);
    let node = Node::with_shape(shape, 4, 2)?;
    let state = node.state()?;
    assert_eq!((state.nodes, state.own, state.registers), (6, 4, 301));
    assert_eq!((state.slots, state.places, state.bytes), (70_001, 10, 18));
    let parts = (shape.nodes, shape.registers, shape.slots, shape.places);
    assert_eq!(parts, (6, 301, 70_001, 10));
    assert_eq!((shape.bytes, shape.is_wide), (18, true));
    let state = Node::with_limit(6, 33, 70, 4, 2)?.state()?;
    let sizes = (state.nodes, state.registers, state.slots, state.own);
    assert_eq!(sizes, (6, 33, 70, 4));
    let plain = Shape::plain(6, 33, 70);
    assert_eq!(Node::with_shape(plain, 4, 2)?.state()?, state);
    let space = Space::with_shape(shape, 0)?;
    space.open()?;
    let state = space.cell(4)?.expect("the space is open").state()?;
    assert_eq!((state.nodes, state.own, state.registers), (6, 4, 301));
    assert_eq!((state.slots, state.places, state.bytes), (70_001, 10, 18));
    let space = Space::new(6, 33, 70, 0)?;
    space.open()?;
    let state = space.cell(4)?.expect("the space is open").state()?;
    let sizes = (state.nodes, state.registers, state.slots, state.own);
    assert_eq!(sizes, (6, 33, 70, 4));
    Ok(())
}

// Node 2 has received a letter of node 1 that the image of node 1 hasn't sent.
#[test]
fn the_nodes_that_are_apart_are_named_in_their_order() -> Result<()> {
    let space = Space::new(3, 2, 4, 0)?;
    assert_eq!(space.apart(), None);
    space.open()?;
    let cells = space.cells()?;
    let images: Vec<_> = cells.iter().map(|it| it.image()).collect::<Result<_>>()?;
    cells[1].give(2, 9, 0)?;
    cells[1].save(cells[1].image()?.mark)?;
    assert!(cells[1].send(2)?);
    assert!(!cells[1].send(2)?);
    assert_eq!(cells[2].receive(0)?, None);
    assert_eq!(cells[2].receive(1)?, Some(Taken::Received));
    assert!(cells[1].send(2)?);
    let later = Space::new(3, 2, 4, 0)?;
    later.disk(0, &images[0].bytes)?;
    later.disk(1, &images[1].bytes)?;
    later.disk(2, &cells[2].image()?.bytes)?;
    assert_eq!(later.open(), Err(markring::Refusal::Ages));
    assert_eq!(later.apart(), Some((1, 2)));
    Ok(())
}

// Cells answer as nodes do, and node 0's cell shows to the watches the cycle that has ended.
#[test]
fn a_cell_shows_what_a_node_shows() -> Result<()> {
    let space = Space::with_shape(Shape::wide(3, 300, 70_000, 9, 17), 2)?;
    space.disk(1, &image(&MARKING))?;
    // Those that fit: node 0 has sent 60 messages to node 1, and received 52.
    for (own, to_one, from_one) in [(0, 60, 50), (2, 200, FAR)] {
        space.disk(own, &idle(own.into(), to_one, from_one))?;
    }
    space.open()?;
    let cell = space.cell(1)?.expect("the space is open");
    assert_eq!(cell.state()?, STATE);
    assert_eq!(cell.link(0)?.received, 60);
    assert_eq!(cell.object(0)?, node(&MARKING)?.object(0)?);
    let zero = space.cell(0)?.expect("the space is open");
    assert_eq!(zero.raise()?, 40);
    let watches = [space.watch()?, space.watch()?].map(|it| it.expect("there are two"));
    assert_eq!([watches[0].look()?, watches[1].look()?], [40, 40]);
    Ok(())
}

// Node 0 or 2 of the same space: it has swept cycle 40, and has received from node 1 what that one
// counts as acknowledged.
fn idle(own: u64, to_one: u64, from_one: u64) -> Vec<u8> {
    let mut image = spelled(&[(3, 0x4D_5204), (1, 9), (4, 17)]);
    image.extend(spelled(&[(1, 3), (1, own), (2, 300), (4, 70_000)]));
    image.extend(spelled(&[(8, 40), (8, 40), (8, 40), (4, 0)]));
    image.extend(spelled(&[(1, 0), (8, 0), (8, 0), (1, 0)]));
    if own == 0 {
        image.extend(spelled(&[(8, 40), (8, 40)]));
    }
    image.extend([0; 300]);
    image.extend(spelled(&[(4, 0); 5]));
    let with_one = [(8, to_one), (4, 0), (8, from_one)];
    let other = [(8, 0), (4, 0), (8, 0)];
    let links = if own == 0 {
        [with_one, other]
    } else {
        [other, with_one]
    };
    image.extend(spelled(&links.concat()));
    image
}

// A call that is given as an event too.
type Both<'a> = (Event, &'a dyn Fn(&Node) -> Result<()>);

// Register 0 of the node gets an object of its own, register 299 has one of node 2.
fn calls<'a>() -> Vec<Both<'a>> {
    let label = LABEL as u32;
    #[rustfmt::skip]
    let all: Vec<Both<'a>> = vec![
        (Event::Alloc { register: 257, places: 9 }, &|it| it.alloc(257, 9).map(drop)),
        (Event::Copy { register: 258, source: 299 }, &|it| it.copy(258, 299)),
        (Event::Drop { register: 299 }, &|it| it.drop_register(299)),
        (Event::Load { register: 3, object: 0, place: 4 }, &|it| it.load(3, 0, 4).map(drop)),
        (Event::Store { object: 0, place: 3, register: 299 }, &|it| it.store(0, 3, 299)),
        (Event::Clear { object: 0, place: 4 }, &|it| it.clear(0, 4)),
        (Event::Word { object: 0 }, &|it| it.word(0).map(drop)),
        (Event::SetWord { object: 0, word: WORD }, &|it| it.set_word(0, WORD)),
        (Event::Give { to: 2, label, register: 299 }, &|it| it.give(2, LABEL as u32, 299).map(drop)),
        (Event::Accept { register: 256 }, &|it| it.accept(256).map(drop)),
        (Event::Put { object: 299, place: 8, register: 0 }, &|it| it.put(299, 8, 0).map(drop)),
        (Event::Get { object: 299, place: 7, label }, &|it| it.get(299, 7, LABEL as u32).map(drop)),
        (Event::Resolve { register: 257, reference: KEPT }, &|it| it.resolve(257, KEPT)),
        (Event::Reclaim, &|it| it.reclaim().map(drop)),
        (Event::ReclaimYoung, &|it| it.reclaim_young().map(drop)),
        (Event::Scan, &|it| it.scan().map(drop)),
    ];
    all
}

// Cycle 41 has marked the objects in the first slot and in the fourth.
#[test]
fn a_reference_is_resolved_by_all_of_its_numbers() -> Result<()> {
    let (marking, marked) = (node(&MARKING)?, node(&MARKED)?);
    marking.resolve(258, KEPT)?;
    assert_eq!(
        (marking.register(258)?, marking.word(258)?),
        (Some(KEPT), WORD)
    );
    marking.resolve(0, reference(1, 3, 79))?;
    assert_eq!(marking.word(0)?, 13);
    let white = reference(1, 1, 78);
    for (node, reference, refusal) in [
        (&marking, reference(2, 0, GENERATION), Refusal::Remote),
        (&marking, reference(1, 1, GENERATION), Refusal::NoField),
        (
            &marking,
            reference(1, 1 << 16, GENERATION),
            Refusal::NoField,
        ),
        (&marking, reference(1, 0, 0), Refusal::NoField),
        (&marking, reference(1, 0, GENERATION + 1), Refusal::NoField),
        (&marking, white, Refusal::NotNow),
        (&marked, white, Refusal::NoField),
    ] {
        assert_eq!(node.resolve(0, reference), Err(refusal), "{reference}");
    }
    assert_eq!(marking.register(0)?, Some(reference(1, 3, 79)));
    Ok(())
}

#[test]
fn events_as_values_do_what_the_calls_do() -> Result<()> {
    let made = || -> Result<Node> {
        let node = node(&MARKING)?;
        node.alloc(0, 5)?;
        node.store(0, 4, 299)?;
        Ok(node)
    };
    for (event, call) in calls() {
        let (one, other) = (made()?, made()?);
        one.act(event)?;
        call(&other)?;
        assert_eq!(one.image()?.bytes, other.image()?.bytes, "{event:?}");
    }
    let (one, other) = (node(&MARKED)?, node(&MARKED)?);
    one.act(Event::Sweep { count: 2 })?;
    other.sweep(2)?;
    assert_eq!(one.image()?.bytes, other.image()?.bytes);
    for node in [&one, &other] {
        assert_eq!(node.take(&frame(62))?, Taken::Early);
        assert_eq!(node.take(&frame(63))?, Taken::Early);
        assert_eq!(node.take(&frame(61))?, Taken::Received);
    }
    assert_eq!(
        one.act(Event::Next { from: 0 })?,
        Answer::Taken(Taken::Received)
    );
    assert_eq!(
        one.act(Event::Next { from: 2 }),
        Err(markring::Refusal::NothingToDo)
    );
    other.next(0)?;
    assert_eq!(one.image()?.bytes, other.image()?.bytes);
    assert_eq!((one.waiting(0)?, one.link(0)?.received), (Some(63), 62));
    Ok(())
}

// Node 0 of two, which has swept cycle 5 as the other has, in that cycle or in the next one, in which
// it has a white token of sum 0.
fn director(cycle: u64) -> Result<Node> {
    let mut image = spelled(&[(3, 0x4D_5202), (1, 2), (1, 0), (2, 1), (4, 1), (8, cycle)]);
    image.extend(spelled(&[(8, 5), (8, 5), (4, 0), (1, 0), (8, 0), (8, 0)]));
    image.extend(spelled(
        &[(1, cycle - 5), (1, 0), (8, 0)][..if cycle == 5 { 1 } else { 3 }],
    ));
    image.extend(spelled(&[
        (8, 5),
        (1, 0),
        (4, 0),
        (4, 0),
        (4, 0),
        (4, 0),
        (4, 0),
    ]));
    image.extend(spelled(&[(8, 0), (4, 0), (8, 0)]));
    Node::from_image(&image, 0)
}

#[test]
fn an_end_and_a_begin_show_their_cycles() -> Result<()> {
    assert_eq!(director(5)?.begin()?, 6);
    assert_eq!(director(5)?.act(Event::Begin)?, Answer::Begun(6));
    assert_eq!(director(6)?.pass()?, Passed::Ended(6));
    assert_eq!(
        director(6)?.act(Event::Pass)?,
        Answer::Passed(Passed::Ended(6))
    );
    // The object that is scanned is the last grey one.
    let last = reference(1, 3, 79);
    assert_eq!(node(&MARKING)?.scan()?, last);
    assert_eq!(node(&MARKING)?.act(Event::Scan)?, Answer::Scanned(last));
    assert_eq!(last.to_string(), "1.3.79");
    Ok(())
}
