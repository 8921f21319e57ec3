//! Each argument at its limit, and one past it, as docs/RULES.md of the repository ("Limits") has
//! them. Those of nodes are tried on cells too.

use markring::{Cell, Event, Events, Node, Ref, Refusal, Result, Shape, Space, Taken};

const WIDE: Shape = Shape::wide(2, 65_535, 16_777_216, 255, 16_777_216);
// Numbers of registers that differ in a byte each.
const REGISTERS: [u16; 4] = [0, 255, 256, 65_534];

fn cells(shape: Shape) -> Result<Vec<Cell>> {
    let space = Space::with_shape(shape, 0)?;
    space.open()?;
    space.cells()
}

fn wide() -> Result<(Node, Vec<Cell>)> {
    Ok((Node::with_shape(WIDE, 0, 0)?, cells(WIDE)?))
}

// Makes an object in each of the registers; its word is the number of its register.
fn filled(node: &impl Events) -> Result<Vec<Ref>> {
    let made = REGISTERS.iter().map(|register| {
        let object = node.alloc(*register, 255)?;
        node.set_word(*register, u64::from(*register))?;
        Ok(object)
    });
    made.collect()
}

fn each_call_uses_the_whole_register(node: &impl Events) -> Result<()> {
    let objects = filled(node)?;
    let free = 300;
    for (register, object) in REGISTERS.into_iter().zip(&objects) {
        assert_eq!(node.register(register)?, Some(*object));
        assert_eq!(node.word(register)?, u64::from(register));
        node.copy(free, register)?;
        assert_eq!(node.register(free)?, Some(*object));
        node.copy(register, free)?;
        node.set_bytes(register, &register.to_be_bytes())?;
        assert_eq!(node.bytes(free)?, register.to_be_bytes());
        node.patch(register, 1, &[9])?;
        let mut byte = [0];
        node.read_bytes(register, 1, &mut byte)?;
        assert_eq!((node.bytes_len(register)?, byte), (2, [9]));
        node.store(free, 0, register)?;
        assert_eq!(node.load(free + 1, register, 0)?, Some(*object));
        node.clear(register, 0)?;
        assert_eq!(node.load(register, free, 0)?, None);
        assert_eq!(node.register(register)?, None);
        node.copy(register, free)?;
        node.drop_register(register)?;
        assert_eq!(node.register(register)?, None);
        node.copy(register, free)?;
    }
    Ok(())
}

#[test]
fn each_call_uses_the_whole_number_of_a_register() -> Result<()> {
    let (node, cells) = wide()?;
    each_call_uses_the_whole_register(&node)?;
    each_call_uses_the_whole_register(&cells[0])
}

// As values, events use the whole number too.
fn each_event_uses_the_whole_register(node: &impl Events) -> Result<()> {
    let objects = filled(node)?;
    for register in REGISTERS {
        let (object, source, place) = (register, register, 254);
        let events = [
            Event::Copy {
                register: 301,
                source,
            },
            Event::Store {
                object,
                place,
                register: 301,
            },
            Event::Load {
                register: 302,
                object,
                place,
            },
            Event::Clear { object: 302, place },
            Event::SetWord {
                object,
                word: 5 + u64::from(register),
            },
            Event::Drop { register: 302 },
        ];
        for event in events {
            node.act(event)?;
        }
        assert_eq!(node.word(301)?, 5 + u64::from(register));
        assert_eq!(node.load(303, 301, 254)?, None);
    }
    assert_eq!(node.register(302)?, None);
    for (register, object) in REGISTERS.into_iter().zip(objects) {
        assert_eq!(node.register(register)?, Some(object));
    }
    Ok(())
}

#[test]
fn each_event_uses_the_whole_number_of_a_register() -> Result<()> {
    let (node, cells) = wide()?;
    each_event_uses_the_whole_register(&node)?;
    each_event_uses_the_whole_register(&cells[0])
}

// An object of another node.
const NAMED: Ref = Ref {
    node: 1,
    slot: 0,
    generation: 1,
};

// All calls with a register, given the number past the last.
fn calls_with_a_register(node: &impl Events, none: u16) -> Vec<(&'static str, Option<Refusal>)> {
    vec![
        ("alloc", node.alloc(none, 0).err()),
        ("copy to", node.copy(none, 0).err()),
        ("copy from", node.copy(0, none).err()),
        ("drop", node.drop_register(none).err()),
        ("load to", node.load(none, 0, 0).err()),
        ("load from", node.load(0, none, 0).err()),
        ("store to", node.store(none, 0, 0).err()),
        ("store from", node.store(0, 0, none).err()),
        ("clear", node.clear(none, 0).err()),
        ("word", node.word(none).err()),
        ("set_word", node.set_word(none, 0).err()),
        ("bytes_len", node.bytes_len(none).err()),
        ("bytes", node.bytes(none).err()),
        ("read_bytes", node.read_bytes(none, 0, &mut []).err()),
        ("set_bytes", node.set_bytes(none, &[]).err()),
        ("patch", node.patch(none, 0, &[]).err()),
        ("give", node.give(1, 0, none).err()),
        ("post", node.post(1, 0, none, 1, &[]).err()),
        ("accept", node.accept(none).err()),
        ("put to", node.put(none, 0, 0).err()),
        ("put from", node.put(0, 0, none).err()),
        ("get", node.get(none, 0, 0).err()),
        ("fetch", node.fetch(none, 0, 0, 0).err()),
        ("resolve", node.resolve(none, NAMED).err()),
        ("register", node.register(none).err()),
    ]
}

#[test]
fn there_is_no_register_past_the_last() -> Result<()> {
    for (shape, none) in [(WIDE, 65_535), (Shape::plain(2, 256, 16), 256)] {
        let (node, cells) = (Node::with_shape(shape, 0, 0)?, cells(shape)?);
        node.alloc(0, 1)?;
        cells[0].alloc(0, 1)?;
        let all = [
            calls_with_a_register(&node, none),
            calls_with_a_register(&cells[0], none),
        ];
        for (call, refusal) in all.concat() {
            assert_eq!(refusal, Some(Refusal::NoRegister), "{call}");
        }
        node.alloc(none - 1, 1)?;
        node.store(none - 1, 0, 0)?;
        node.store(0, 0, none - 1)?;
        assert_eq!(node.load(none - 1, 0, 0)?, node.register(none - 1)?);
    }
    Ok(())
}

// Node 1 gets a letter with an object of node 0, whose last place it asks for and writes.
#[test]
fn messages_use_whole_numbers() -> Result<()> {
    let nodes = [Node::with_shape(WIDE, 0, 0)?, Node::with_shape(WIDE, 1, 0)?];
    let flush = |from: usize| -> Result<()> {
        nodes[from].release()?;
        for frame in nodes[from].frames(1 - from as u8, 0)? {
            assert_ne!(nodes[1 - from].take(&frame.bytes)?, Taken::Early);
        }
        nodes[1 - from].release()?;
        nodes[from].take(&nodes[1 - from].ack_for(from as u8)?)?;
        Ok(())
    };
    for (register, label) in REGISTERS.into_iter().zip([0, 255, 65_536, u32::MAX]) {
        let object = nodes[0].alloc(register, 255)?;
        nodes[0].give(1, label, register)?;
        flush(0)?;
        let letter = nodes[1].accept(register)?;
        assert_eq!((letter.label, letter.reference), (label, Some(object)));
        nodes[1].put(register, 254, register)?;
        nodes[1].get(register, 254, label)?;
        assert_eq!(nodes[1].get(register, 255, 0), Err(Refusal::NoField));
        assert_eq!(nodes[1].put(register, 255, 0), Err(Refusal::NoField));
        flush(1)?;
        assert_eq!(nodes[0].load(7, register, 254)?, Some(object));
        flush(0)?;
        let letter = nodes[1].accept(9)?;
        assert_eq!((letter.label, letter.reference), (label, Some(object)));
    }
    Ok(())
}

// Node 0 gets what node 1 sends it.
fn letters_use_whole_numbers(
    zero: &impl Events,
    one: &impl Events,
    flush: impl Fn() -> Result<()>,
) -> Result<()> {
    for (register, label) in REGISTERS.into_iter().zip([0, 255, 65_536, u32::MAX]) {
        let object = one.alloc(register, 0)?;
        let bytes: Vec<u8> = (0..65_535).map(|it| (it % 253) as u8).collect();
        for count in [0, 1, 255, 256, 65_535] {
            one.post(0, label, register, 1, &bytes[..count])?;
            flush()?;
            let (letter, found) = zero.accept_with_bytes(register)?;
            assert_eq!((letter.label, letter.reference), (label, Some(object)));
            assert_eq!((letter.registers, letter.bytes), (1, count));
            assert!(found == bytes[..count]);
            assert_eq!(zero.register(register)?, Some(object));
        }
        zero.fetch(register, label, u32::MAX, 65_527)?;
        let refusal = zero.fetch(register, label, 0, 65_528);
        assert_eq!(refusal, Err(Refusal::TooManyBytes));
        assert_eq!(
            zero.fetch(register, 0, 0, u32::MAX),
            Err(Refusal::TooManyBytes)
        );
    }
    Ok(())
}

#[test]
fn letters_with_bytes_use_whole_numbers() -> Result<()> {
    let nodes = [Node::with_shape(WIDE, 0, 0)?, Node::with_shape(WIDE, 1, 0)?];
    letters_use_whole_numbers(&nodes[0], &nodes[1], || {
        nodes[1].release()?;
        for frame in nodes[1].frames(0, 0)? {
            assert_eq!(nodes[0].take(&frame.bytes)?, Taken::Received);
        }
        nodes[0].release()?;
        nodes[1].take(&nodes[0].ack_for(1)?).map(drop)
    })?;
    let cells = cells(Shape::wide(2, 65_535, 16, 1, 65_535))?;
    letters_use_whole_numbers(&cells[0], &cells[1], || {
        cells[1].save(cells[1].image()?.mark)?;
        while cells[0].state()?.letters == 0 {
            cells[1].send(0)?;
            cells[0].receive(1)?;
        }
        cells[0].save(cells[0].image()?.mark)
    })
}

// A letter has at most this many references and bytes.
fn letters_end(node: &impl Events, places: u8, bytes: usize) -> Result<()> {
    let text = vec![1; bytes + 1];
    node.post(1, 0, 0, places, &text[..bytes])?;
    let refusal = node.post(1, 0, 0, 0, &text);
    assert_eq!(refusal, Err(Refusal::TooManyBytes));
    if let Some(above) = places.checked_add(1) {
        let refusal = node.post(1, 0, 0, above, &text);
        assert_eq!(refusal, Err(Refusal::TooManyFields));
    }
    let last = node.state()?.registers - 1;
    node.post(1, 0, last, u8::from(places > 0), &[])?;
    assert_eq!(node.post(1, 0, last, 2, &text), Err(Refusal::NoRegister));
    Ok(())
}

#[test]
fn letters_end_at_the_places_and_bytes_of_the_shape() -> Result<()> {
    for (shape, places, bytes) in [
        (WIDE, 255, 65_535),
        (Shape::wide(2, 300, 16, 254, 65_534), 254, 65_534),
        (Shape::wide(2, 300, 16, 0, 0), 0, 0),
    ] {
        letters_end(&Node::with_shape(shape, 0, 0)?, places, bytes)?;
        letters_end(&cells(shape)?[0], places, bytes)?;
    }
    // A letter of two references stays if only one register is there.
    let shape = Shape::wide(2, 3, 16, 2, 10);
    let nodes = [
        Node::with_shape(shape, 0, 0)?,
        Node::with_shape(shape, 1, 0)?,
    ];
    nodes[0].post(1, 0, 0, 2, b"ab")?;
    nodes[0].release()?;
    nodes[1].take(&nodes[0].frames(1, 0)?[0].bytes)?;
    assert_eq!(nodes[1].accept(2), Err(Refusal::NoRegister));
    assert_eq!(nodes[1].accept_with_bytes(2), Err(Refusal::NoRegister));
    assert_eq!(nodes[1].accept_with_bytes(1)?.1, b"ab");
    Ok(())
}

fn places_end(node: &impl Events, most: u8) -> Result<()> {
    node.alloc(0, most)?;
    node.store(0, most - 1, 0)?;
    assert_eq!(node.store(0, most, 0), Err(Refusal::NoField));
    assert_eq!(node.load(1, 0, most), Err(Refusal::NoField));
    assert_eq!(node.clear(0, most), Err(Refusal::NoField));
    assert_eq!(node.place(0, most), Err(Refusal::NoField));
    assert_eq!(node.place(0, most - 1)?, node.register(0)?);
    node.clear(0, most - 1)?;
    assert_eq!(node.place(0, most - 1)?, None);
    let above = most.checked_add(1);
    let refusal = above.map(|above| node.alloc(1, above));
    assert!(matches!(refusal, None | Some(Err(Refusal::TooManyFields))));
    Ok(())
}

#[test]
fn places_end_at_that_of_the_shape() -> Result<()> {
    let shapes = [WIDE, Shape::wide(2, 2, 16, 254, 0), Shape::plain(2, 2, 16)];
    for (shape, most) in shapes.into_iter().zip([255, 254, 8]) {
        places_end(&Node::with_shape(shape, 0, 0)?, most)?;
        places_end(&cells(shape)?[0], most)?;
    }
    let none = Node::with_shape(Shape::wide(2, 2, 16, 0, 0), 0, 0)?;
    assert_eq!(none.alloc(0, 1), Err(Refusal::TooManyFields));
    none.alloc(0, 0)?;
    Ok(())
}

fn bytes_end(node: &impl Events, most: usize) -> Result<()> {
    let mut bytes: Vec<u8> = (0..most).map(|it| (it % 251) as u8).collect();
    let last = most as u32 - 1;
    node.alloc(0, 0)?;
    node.set_bytes(0, &bytes)?;
    assert_eq!(node.bytes_len(0)?, last + 1);
    assert!(node.bytes(0)? == bytes);
    node.patch(0, last, &[252])?;
    node.patch(0, 65_537, &[253, 254])?;
    (bytes[most - 1], bytes[65_537], bytes[65_538]) = (252, 253, 254);
    assert!(node.bytes(0)? == bytes);
    let mut some = [0; 3];
    node.read_bytes_at(0, 65_537, &mut some)?;
    assert_eq!(some, bytes[65_537..65_540]);
    node.read_bytes(0, last - 2, &mut some)?;
    assert_eq!(some, bytes[most - 3..]);
    assert_eq!(
        node.read_bytes(0, last - 1, &mut some),
        Err(Refusal::NoBytes)
    );
    assert_eq!(
        node.read_bytes_at(0, last - 1, &mut some),
        Err(Refusal::NoBytes)
    );
    assert_eq!(node.patch(0, last, &[0; 2]), Err(Refusal::NoBytes));
    assert_eq!(node.patch(0, last + 1, &[0]), Err(Refusal::NoBytes));
    node.patch(0, last + 1, &[])?;
    bytes.push(0);
    assert_eq!(node.set_bytes(0, &bytes), Err(Refusal::TooManyBytes));
    assert_eq!(node.read_bytes(0, 0, &mut bytes), Err(Refusal::NoBytes));
    Ok(())
}

#[test]
fn bytes_end_at_those_of_the_shape() -> Result<()> {
    let shapes = [WIDE, Shape::wide(2, 2, 16, 0, 65_600)];
    for (shape, most) in shapes.into_iter().zip([16_777_216, 65_600]) {
        bytes_end(&Node::with_shape(shape, 0, 0)?, most)?;
        bytes_end(&cells(shape)?[0], most)?;
    }
    Ok(())
}

fn slots_end(node: &impl Events, slots: u32) -> Result<()> {
    for slot in 0..slots {
        assert_eq!(node.alloc(0, 0)?.slot, slot);
    }
    assert_eq!(node.alloc(0, 0), Err(Refusal::ArenaFull));
    assert_eq!((node.slots()?, node.state()?.live), (slots, slots));
    for slot in [0, 255, 256, 65_535, 65_536, slots - 1] {
        let object = node.object(slot)?.expect("the slot has an object");
        assert_eq!(object.reference.slot, slot);
        assert_eq!(node.place(slot, 0), Err(Refusal::NoField));
        node.read_bytes_at(slot, 0, &mut [])?;
    }
    for slot in [slots, u32::MAX] {
        assert_eq!(node.object(slot)?, None);
        assert_eq!(node.read_bytes_at(slot, 0, &mut []), Err(Refusal::NoField));
    }
    Ok(())
}

#[test]
fn slots_end_at_those_of_the_shape() -> Result<()> {
    for shape in [Shape::wide(2, 1, 65_540, 0, 0), Shape::plain(2, 1, 65_540)] {
        slots_end(&Node::with_shape(shape, 0, 0)?, shape.slots)?;
        slots_end(&cells(shape)?[0], shape.slots)?;
    }
    // The place of one slot isn't that of the slot with the same low byte or the same low half.
    let node = Node::with_shape(Shape::wide(2, 2, 65_540, 1, 1), 0, 0)?;
    for slot in 0..65_540 {
        node.alloc(0, u8::from(slot > 1 && slot % 256 == 1))?;
    }
    node.store(0, 0, 0).unwrap_err();
    assert_eq!(node.place(65_537, 0)?, None);
    assert_eq!(node.place(65_536, 0), Err(Refusal::NoField));
    assert_eq!(node.place(1, 0), Err(Refusal::NoField));
    node.set_bytes(0, &[7])?;
    let mut byte = [0];
    node.read_bytes_at(65_539, 0, &mut byte)?;
    assert_eq!(
        (byte, node.read_bytes_at(3, 0, &mut byte)),
        ([7], Err(Refusal::NoBytes))
    );
    Ok(())
}

#[test]
fn words_and_sweeps_use_whole_numbers() -> Result<()> {
    let (node, cells) = wide()?;
    node.alloc(0, 0)?;
    for word in [0, 255, 1 << 32, u64::MAX] {
        node.set_word(0, word)?;
        assert_eq!(node.word(0)?, word);
        node.act(Event::SetWord {
            object: 0,
            word: !word,
        })?;
        assert_eq!(node.word(0)?, !word);
    }
    // With nothing to sweep, no count is refused for another reason.
    for count in [0, 256, u32::MAX] {
        assert_eq!(node.sweep(count), Err(Refusal::NothingToDo));
        assert_eq!(cells[0].sweep(count), Err(Refusal::NothingToDo));
    }
    Ok(())
}

// A call that is given the number of a node, and the first number that it takes.
type Call<'a> = (&'a dyn Fn(u8) -> Option<Refusal>, u8);

#[test]
fn nodes_end_at_those_of_the_space() -> Result<()> {
    let (node, cells) = (Node::new(64, 1, 1, 0)?, cells(Shape::plain(64, 1, 1))?);
    let calls: [Call; 12] = [
        (&|it| node.give(it, 0, 0).err(), 1),
        (&|it| node.link(it).err(), 1),
        (&|it| node.frames(it, 0).err(), 1),
        (&|it| node.frame_at(it, 31).err(), 1),
        (&|it| node.ack_for(it).err(), 1),
        (&|it| node.waiting(it).err(), 1),
        (&|it| Node::new(64, 1, 1, it).err(), 0),
        (&|it| cells[0].give(it, 0, 0).err(), 1),
        (&|it| cells[0].link(it).err(), 1),
        (&|it| cells[0].send(it).err(), 1),
        (&|it| cells[0].receive(it).err(), 1),
        (
            &|it| Node::with_shape(Shape::plain(64, 1, 1), it, 0).err(),
            0,
        ),
    ];
    for (index, (call, first)) in calls.iter().enumerate() {
        assert_eq!([call(*first), call(63)], [None; 2], "call {index}");
        assert_eq!(
            [call(64), call(255)],
            [Some(Refusal::NoNode); 2],
            "call {index}"
        );
    }
    assert_eq!(
        [node.next(63), node.next(64)],
        [Err(Refusal::NothingToDo), Err(Refusal::NoNode)]
    );
    assert_eq!(node.frame_at(1, 32), Err(Refusal::BadArgument));
    assert_eq!(node.link(63)?.appended, 1);
    assert_eq!(cells[63].link(0)?.appended, 0);
    Ok(())
}

#[test]
fn spaces_end_at_their_nodes_and_watches() -> Result<()> {
    let space = Space::new(64, 1, 1, 255)?;
    space.disk(63, &[])?;
    assert_eq!(space.disk(64, &[]), Err(Refusal::NoNode));
    assert_eq!(space.open(), Err(Refusal::BadImage));
    assert!(space.cell(63)?.is_none());
    let image = Node::new(64, 1, 1, 63)?.image()?;
    space.disk(63, &image.bytes)?;
    space.open()?;
    assert_eq!(space.cell(63)?.map(|it| it.state().unwrap().own), Some(63));
    assert_eq!(space.cell(64).err(), Some(Refusal::NoNode));
    assert_eq!(space.cells()?.len(), 63);
    let watches: Vec<_> = std::iter::from_fn(|| space.watch().unwrap()).collect();
    assert_eq!(watches.len(), 255);
    let none = Space::new(2, 1, 1, 0)?;
    none.open()?;
    assert!(none.watch()?.is_none());
    Ok(())
}

#[test]
fn sizes_end_at_their_limits() {
    let bad = Some(Refusal::BadArgument);
    let plain = |nodes, registers, slots| {
        let shape = Shape::plain(nodes, registers, slots);
        let made = [
            Node::new(nodes, registers, slots, 1).err(),
            Node::with_limit(nodes, registers, slots, 1, 1).err(),
            Node::with_shape(shape, 1, 0).err(),
            Space::new(nodes, registers, slots, 0).err(),
            Space::with_shape(shape, 0).err(),
        ];
        assert!(made.iter().all(|it| *it == made[0]), "{made:?}");
        made[0]
    };
    let wide = |nodes, registers, slots, places, bytes| {
        let shape = Shape::wide(nodes, registers, slots, places, bytes);
        let node = Node::with_shape(shape, 1, 0).err();
        assert_eq!(node, Space::with_shape(shape, 0).err());
        node
    };
    assert_eq!([plain(2, 1, 1), plain(64, 256, 1_048_576)], [None; 2]);
    assert_eq!(
        [plain(1, 1, 1), plain(65, 1, 1), plain(255, 1, 1)],
        [bad; 3]
    );
    assert_eq!(
        [plain(2, 0, 1), plain(2, 257, 1), plain(2, 65_535, 1)],
        [bad; 3]
    );
    assert_eq!(
        [
            plain(2, 1, 0),
            plain(2, 1, 1_048_577),
            plain(2, 1, u32::MAX)
        ],
        [bad; 3]
    );
    assert_eq!(
        [
            wide(2, 1, 1, 0, 0),
            wide(64, 65_535, 16_777_216, 255, 16_777_216)
        ],
        [None; 2]
    );
    assert_eq!(
        [
            wide(1, 1, 1, 0, 0),
            wide(65, 1, 1, 0, 0),
            wide(2, 0, 1, 0, 0)
        ],
        [bad; 3]
    );
    assert_eq!(
        [wide(2, 1, 0, 0, 0), wide(2, 1, 16_777_217, 0, 0)],
        [bad; 2]
    );
    assert_eq!(
        [wide(2, 1, 1, 0, 16_777_217), wide(2, 1, 1, 0, u32::MAX)],
        [bad; 2]
    );
}

// Each constructor passes its limit on.
#[test]
fn limits_of_messages_are_kept() -> Result<()> {
    let image = Node::new(2, 1, 1, 0)?.image()?.bytes;
    let shape = Shape::wide(2, 1, 1, 0, 0);
    for limit in [1, 3, 256] {
        let nodes = [
            Node::with_limit(2, 1, 1, 0, limit)?,
            Node::with_shape(shape, 0, limit)?,
            Node::from_image(&image, limit)?,
            Node::from_batches(&image, &[], limit)?,
        ];
        for node in nodes {
            for number in 1..=limit {
                assert_eq!(node.give(1, 0, 0), Ok(number));
            }
            assert_eq!(node.give(1, 0, 0), Err(Refusal::Congested));
        }
    }
    for node in [
        Node::new(2, 1, 1, 0)?,
        Node::with_limit(2, 1, 1, 0, u64::MAX)?,
    ] {
        for number in 1..=2_000 {
            assert_eq!(node.give(1, 0, 0), Ok(number));
        }
    }
    Ok(())
}
