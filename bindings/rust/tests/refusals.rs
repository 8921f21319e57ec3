//! Each call is refused with each error that its documentation names. `Memory`, and what only a lack
//! of memory causes, is in tests/memory.rs.

use markring::{Cell, Events, Node, Ref, Refusal, Result, Shape, Space, Taken};
use spelling::spelled;
use std::collections::BTreeSet;

mod spelling;

const LAST: u64 = 1 << 48;

// The refusals of calls, by the calls' names.
type Rows = Vec<(&'static str, Refusal, Option<Refusal>)>;

macro_rules! rows {
    ($($name:literal $refusal:ident: $call:expr;)*) => {
        vec![$(($name, Refusal::$refusal, $call.err())),*]
    };
}

// Node 1 of three in cycle 2, whose links have no number left. Register 0 has an object of its own
// with a reference of node 2 in its place, register 1 has one of node 2, register 2 is empty.
struct Spent {
    ended: u64,
    grey: bool,
    token: bool,
}

fn spent(it: &Spent) -> Result<Node> {
    let far = [(1, 1), (1, 2), (4, 3), (8, 5)];
    let mut image = spelled(&[(3, 0x4D_5202), (1, 3), (1, 1), (2, 3), (4, 16)]);
    image.extend(spelled(&[
        (8, 2),
        (8, it.ended),
        (8, 1),
        (4, 0),
        (1, 0),
        (8, 0),
        (8, 0),
    ]));
    image.extend(if it.token { vec![1; 1] } else { vec![0] });
    image.extend(vec![0; if it.token { 9 } else { 0 }]);
    image.extend(spelled(&[(1, 1), (1, 1), (4, 0), (8, 1)]));
    image.extend(spelled(&[&far[..], &[(1, 0)]].concat()));
    image.extend(spelled(&[(4, 1), (1, 1), (8, 1), (8, 2), (8, 0), (1, 1)]));
    image.extend(spelled(
        &[&far[..], &[(4, 0), (4, u64::from(it.grey))]].concat(),
    ));
    image.extend(vec![0; if it.grey { 4 } else { 0 }]);
    image.extend(spelled(&[(4, 0), (4, 0)]));
    image.extend(spelled(&[(8, LAST), (4, 0), (8, 0)].repeat(2)));
    Node::from_image(&image, 0)
}

// Node 0 of two, which may begin a cycle after this one.
fn director(cycle: u64, sent: u64) -> Result<Node> {
    let mut image = spelled(&[(3, 0x4D_5202), (1, 2), (1, 0), (2, 1), (4, 1)]);
    image.extend(spelled(&[
        (8, cycle),
        (8, cycle),
        (8, cycle),
        (4, 0),
        (1, 0),
        (8, 0),
        (8, 0),
    ]));
    image.extend(spelled(&[
        (1, 0),
        (8, cycle),
        (1, 0),
        (4, 0),
        (4, 0),
        (4, 0),
        (4, 0),
        (4, 0),
    ]));
    image.extend(spelled(&[(8, sent), (4, 0), (8, 0)]));
    Node::from_image(&image, 0)
}

// Node 0 of two in a wide space, whose link has no number left. Register 0 has an object of node 1.
fn wide_spent() -> Result<Node> {
    let mut image = spelled(&[
        (3, 0x4D_5204),
        (1, 1),
        (4, 1),
        (1, 2),
        (1, 0),
        (2, 1),
        (4, 1),
    ]);
    image.extend([0; 3 * 8 + 4 + 1 + 8 + 8 + 1 + 8]);
    image.extend(spelled(&[(1, 1), (1, 1), (4, 0), (8, 1)]));
    image.extend([0; 5 * 4]);
    image.extend(spelled(&[(8, LAST), (4, 0), (8, 0)]));
    Node::from_image(&image, 0)
}

// A frame from node 0 to node 1 with a Get of the object 1.0.1.
fn get_frame(number: u64) -> Vec<u8> {
    let head = [(1, 0x45), (1, 0), (1, 1), (8, number), (8, 2), (1, 6)];
    let rest = [(1, 1), (4, 0), (8, 1), (1, 0), (4, 7)];
    spelled(&[&head[..], &rest].concat())
}

fn spent_rows() -> Result<Rows> {
    let grey = spent(&Spent {
        ended: 1,
        grey: true,
        token: false,
    })?;
    let token = spent(&Spent {
        ended: 1,
        grey: false,
        token: true,
    })?;
    let marked = spent(&Spent {
        ended: 2,
        grey: false,
        token: false,
    })?;
    let mut rows = rows! {
        "give" LinkSpent: grey.give(2, 0, 0);
        "put" LinkSpent: grey.put(1, 0, 0);
        "get" LinkSpent: grey.get(1, 0, 0);
        "post" LinkSpent: wide_spent()?.post(1, 0, 0, 0, &[]);
        "fetch" LinkSpent: wide_spent()?.fetch(0, 0, 0, 0);
        "load" LinkSpent: grey.load(2, 0, 0);
        "scan" LinkSpent: grey.scan();
        "pass" LinkSpent: token.pass();
        "sweep" LinkSpent: marked.sweep(9);
        "work" LinkSpent: grey.work(1, 0).map_err(Refusal::from);
        "work" LinkSpent: token.work(0, 0).map_err(Refusal::from);
        "work" LinkSpent: marked.work(0, 9).map_err(Refusal::from);
        "begin" LinkSpent: director(5, LAST)?.begin();
        "begin" CyclesSpent: director(LAST, 0)?.begin();
        "take" LinkSpent: marked.take(&get_frame(1));
    };
    // An early message, whose answer there is no number for.
    let early = spent(&Spent {
        ended: 1,
        grey: false,
        token: false,
    })?;
    assert_eq!(early.take(&get_frame(2))?, Taken::Early);
    let letter = spelled(&[
        (1, 0x45),
        (1, 0),
        (1, 1),
        (8, 1),
        (8, 2),
        (1, 4),
        (4, 9),
        (1, 0),
    ]);
    assert_eq!(early.take(&letter)?, Taken::Received);
    rows.extend(rows! { "next" LinkSpent: early.next(0); });
    // The same with one for another node, as only a node that forges them sends.
    let forged = spelled(&[
        (1, 0x45),
        (1, 0),
        (1, 1),
        (8, 3),
        (8, 2),
        (1, 3),
        (1, 2),
        (4, 0),
        (8, 1),
    ]);
    for is_work in [false, true] {
        let node = spent(&Spent {
            ended: 1,
            grey: false,
            token: false,
        })?;
        assert_eq!(node.take(&forged)?, Taken::Early);
        for number in 1..=2 {
            let letter = [(8, number), (8, 2), (1, 4), (4, 9), (1, 0)];
            node.take(&spelled(
                &[&[(1, 0x45), (1, 0), (1, 1)], &letter[..]].concat(),
            ))?;
        }
        rows.extend(if is_work {
            rows! { "work" WrongNode: node.work(1, 1).map_err(Refusal::from); }
        } else {
            rows! { "next" WrongNode: node.next(0); }
        });
    }
    Ok(rows)
}

// A reference to the first object of a slot.
fn named(node: u8, slot: u32) -> Ref {
    Ref {
        node,
        slot,
        generation: 1,
    }
}

// Node 0 of two, which marks, with an object that no register refers to.
fn marking() -> Result<Node> {
    let node = Node::new(2, 1, 1, 0)?;
    node.alloc(0, 0)?;
    node.drop_register(0)?;
    node.begin()?;
    Ok(node)
}

// Node 0 of two with two objects: register 0 has one with a place, register 1 one of node 1, which
// is empty else. There is a register 2, and no register 3.
fn event_rows(node: &impl Events) -> Rows {
    rows! {
        "alloc" NoRegister: node.alloc(3, 0);
        "alloc" TooManyFields: node.alloc(2, 9);
        "alloc" ArenaFull: node.alloc(2, 1);
        "copy" NoRegister: node.copy(3, 0);
        "copy" EmptyRegister: node.copy(0, 2);
        "drop_register" NoRegister: node.drop_register(3);
        "drop_register" EmptyRegister: node.drop_register(2);
        "load" NoRegister: node.load(3, 0, 0);
        "load" EmptyRegister: node.load(0, 2, 0);
        "load" Remote: node.load(0, 1, 0);
        "load" NoField: node.load(0, 0, 1);
        "store" NoRegister: node.store(0, 0, 3);
        "store" EmptyRegister: node.store(0, 0, 2);
        "store" Remote: node.store(1, 0, 0);
        "store" NoField: node.store(0, 1, 0);
        "clear" NoRegister: node.clear(3, 0);
        "clear" EmptyRegister: node.clear(2, 0);
        "clear" Remote: node.clear(1, 0);
        "clear" NoField: node.clear(0, 1);
        "word" NoRegister: node.word(3);
        "word" EmptyRegister: node.word(2);
        "word" Remote: node.word(1);
        "set_word" NoRegister: node.set_word(3, 0);
        "set_word" EmptyRegister: node.set_word(2, 0);
        "set_word" Remote: node.set_word(1, 0);
        "bytes_len" NoRegister: node.bytes_len(3);
        "bytes_len" EmptyRegister: node.bytes_len(2);
        "bytes_len" Remote: node.bytes_len(1);
        "read_bytes" NoRegister: node.read_bytes(3, 0, &mut []);
        "read_bytes" EmptyRegister: node.read_bytes(2, 0, &mut []);
        "read_bytes" Remote: node.read_bytes(1, 0, &mut []);
        "read_bytes" NoBytes: node.read_bytes(0, 0, &mut [0]);
        "bytes" NoRegister: node.bytes(3);
        "bytes" EmptyRegister: node.bytes(2);
        "bytes" Remote: node.bytes(1);
        "set_bytes" NoRegister: node.set_bytes(3, &[]);
        "set_bytes" EmptyRegister: node.set_bytes(2, &[]);
        "set_bytes" Remote: node.set_bytes(1, &[]);
        "set_bytes" TooManyBytes: node.set_bytes(0, &[]);
        "patch" NoRegister: node.patch(3, 0, &[]);
        "patch" EmptyRegister: node.patch(2, 0, &[]);
        "patch" Remote: node.patch(1, 0, &[]);
        "patch" NoBytes: node.patch(0, 0, &[]);
        "give" NoNode: node.give(2, 0, 0);
        "give" SelfSend: node.give(0, 0, 0);
        "give" NoRegister: node.give(1, 0, 3);
        "post" NoNode: node.post(2, 0, 0, 0, &[]);
        "post" SelfSend: node.post(0, 0, 0, 0, &[]);
        "post" NoRegister: node.post(1, 0, 3, 1, &[]);
        "post" TooManyFields: node.post(1, 0, 0, 0, &[]);
        "accept" NoRegister: node.accept(3);
        "accept" NoLetter: node.accept(0);
        "accept_into" NoLetter: node.accept_into(3, &mut Vec::new());
        "accept_with_bytes" NoLetter: node.accept_with_bytes(3);
        "letter" NoLetter: node.letter();
        "letter_bytes" NoLetter: node.letter_bytes();
        "put" NoRegister: node.put(1, 0, 3);
        "put" EmptyRegister: node.put(2, 0, 0);
        "put" Local: node.put(0, 0, 0);
        "put" NoField: node.put(1, 8, 0);
        "get" NoRegister: node.get(3, 0, 0);
        "get" EmptyRegister: node.get(2, 0, 0);
        "get" Local: node.get(0, 0, 0);
        "get" NoField: node.get(1, 8, 0);
        "fetch" NoRegister: node.fetch(3, 0, 0, 0);
        "fetch" EmptyRegister: node.fetch(2, 0, 0, 0);
        "fetch" Local: node.fetch(0, 0, 0, 0);
        "fetch" TooManyBytes: node.fetch(1, 0, 0, 0);
        "resolve" NoRegister: node.resolve(3, named(0, 0));
        "resolve" Remote: node.resolve(2, named(1, 0));
        "resolve" NoField: node.resolve(2, named(0, 1));
        "reclaim" NothingToDo: node.reclaim();
        "reclaim_young" NothingToDo: node.reclaim_young();
        "begin" CycleRunning: node.begin().and_then(|_| node.begin());
        "pass" NothingToDo: node.pass();
        "sweep" NothingToDo: node.sweep(1);
        "scan" NothingToDo: node.scan().and_then(|_| node.scan());
        "next" NoNode: node.next(2);
        "next" NothingToDo: node.next(1);
        "link" NoNode: node.link(0);
        "register" NoRegister: node.register(3);
        "place" NoField: node.place(0, 1);
        "place" NoField: node.place(7, 0);
        "read_bytes_at" NoField: node.read_bytes_at(7, 0, &mut []);
        "read_bytes_at" NoBytes: node.read_bytes_at(0, 0, &mut [0]);
    }
}

// Objects that aren't live: a register has a reference to them, as an image may.
fn dead_rows() -> Result<Rows> {
    let mut image = spelled(&[(3, 0x4D_5202), (1, 2), (1, 0), (2, 1), (4, 1)]);
    image.extend(spelled(&[
        (8, 0),
        (8, 0),
        (8, 0),
        (4, 0),
        (1, 0),
        (8, 0),
        (8, 0),
        (1, 0),
    ]));
    image.extend(spelled(&[
        (8, 0),
        (1, 1),
        (1, 0),
        (4, 0),
        (8, 1),
        (4, 0),
        (4, 0),
        (4, 0),
    ]));
    image.extend(spelled(&[(4, 0), (4, 0), (8, 0), (4, 0), (8, 0)]));
    let node = Node::from_image(&image, 0)?;
    Ok(rows! {
        "word" NoField: node.word(0);
        "set_word" NoField: node.set_word(0, 0);
        "bytes_len" NoField: node.bytes_len(0);
        "read_bytes" NoField: node.read_bytes(0, 0, &mut []);
        "bytes" NoField: node.bytes(0);
        "set_bytes" NoField: node.set_bytes(0, &[]);
        "patch" NoField: node.patch(0, 0, &[]);
    })
}

// Two nodes: register 1 of node 0 has an object of node 1, which has received nothing.
fn pair() -> Result<(Node, Node)> {
    let shape = Shape::plain(2, 3, 1);
    let (zero, one) = (
        Node::with_shape(shape, 0, 3)?,
        Node::with_shape(shape, 1, 0)?,
    );
    zero.alloc(0, 1)?;
    one.alloc(0, 1)?;
    one.give(0, 5, 0)?;
    one.release()?;
    zero.take(&one.frames(0, 0)?[0].bytes)?;
    zero.accept(1)?;
    Ok((zero, one))
}

fn cell_pair() -> Result<(Cell, Cell)> {
    let space = Space::new(2, 3, 1, 0)?;
    space.open()?;
    let mut cells = space.cells()?;
    let (one, zero) = (cells.remove(1), cells.remove(0));
    zero.alloc(0, 1)?;
    one.alloc(0, 1)?;
    one.give(0, 5, 0)?;
    one.save(one.image()?.mark)?;
    one.send(0)?;
    zero.receive(1)?;
    zero.accept(1)?;
    Ok((zero, one))
}

fn node_rows() -> Result<Rows> {
    let (zero, one) = pair()?;
    let image = one.image()?.bytes;
    let far = one.frames(0, 0)?[0].bytes.clone();
    let beyond = spelled(&[
        (1, 0x45),
        (1, 1),
        (1, 0),
        (8, 34),
        (8, 0),
        (1, 4),
        (4, 9),
        (1, 0),
    ]);
    let ack = spelled(&[(1, 0x42), (1, 1), (1, 0), (8, 99)]);
    let mut rows = rows! {
        "new" BadArgument: Node::new(1, 1, 1, 0);
        "new" NoNode: Node::new(2, 1, 1, 2);
        "with_shape" BadArgument: Node::with_shape(Shape::plain(1, 1, 1), 0, 0);
        "with_shape" NoNode: Node::with_shape(Shape::plain(2, 1, 1), 2, 0);
        "from_image" BadImage: Node::from_image(&image[1..], 0);
        "from_batches" BadImage: Node::from_batches(&image, &[0], 0);
        "take" BadFrame: zero.take(&far[1..]);
        "take" WrongNode: one.take(&far);
        "take" OutOfOrder: zero.take(&beyond);
        "take" AckBeyond: zero.take(&ack);
        "frame_at" BadArgument: zero.frame_at(1, 32);
        "frame_at" NoNode: zero.frame_at(0, 0);
        "frames" NoNode: zero.frames(0, 0);
        "ack_for" NoNode: zero.ack_for(2);
        "batch_size" NoLog: zero.batch_size();
        "batch" NoLog: zero.batch();
        "kept" WrongMark: zero.kept(1);
        "waiting" NoNode: zero.waiting(0);
        "begin" NotDirector: one.begin();
        "resolve" NotNow: marking()?.resolve(0, named(0, 0));
    };
    for label in 0..3 {
        zero.give(1, label, 2)?;
    }
    rows.extend(rows! {
        "give" Congested: zero.give(2 - 1, 0, 9);
        "put" Congested: zero.put(1, 0, 9);
        "get" Congested: zero.get(1, 0, 9);
        "post" Congested: zero.post(1, 0, 9, 9, &[]);
        "fetch" Congested: zero.fetch(1, 0, 0, 65_528);
    });
    // The letter that waits has two references.
    let shape = Shape::wide(2, 2, 1, 2, 1);
    let (wide, other) = (
        Node::with_shape(shape, 0, 0)?,
        Node::with_shape(shape, 1, 0)?,
    );
    other.post(0, 0, 0, 2, &[7])?;
    other.release()?;
    wide.take(&other.frames(0, 0)?[0].bytes)?;
    rows.extend(rows! {
        "post" TooManyBytes: wide.post(1, 0, 0, 0, &[7, 7]);
        "accept_into" NoRegister: wide.accept_into(1, &mut Vec::new());
        "accept_with_bytes" NoRegister: wide.accept_with_bytes(1);
    });
    Ok(rows)
}

fn space_rows() -> Result<Rows> {
    let (space, later) = (Space::new(2, 1, 1, 0)?, Space::new(2, 1, 1, 0)?);
    let image = Node::new(2, 1, 1, 0)?.image()?.bytes;
    let mut rows = rows! {
        "new" BadArgument: Space::new(2, 0, 1, 0);
        "with_shape" BadArgument: Space::with_shape(Shape::plain(2, 1, 0), 0);
        "disk" NoNode: space.disk(2, &image);
        "cell" NoNode: space.cell(2);
        "open" WrongDisks: later.disk(1, &image).and_then(|()| later.open());
        "open" BadImage: later.disk(1, &image[1..]).and_then(|()| later.open());
    };
    // Node 0 has received a letter of node 1 that a new node 1 hasn't sent.
    let (zero, _one) = cell_pair()?;
    let again = Space::new(2, 3, 1, 0)?;
    again.disk(0, &zero.image()?.bytes)?;
    rows.extend(rows! {
        "open" Ages: again.open();
        "open" InUse: space.open().and_then(|()| space.open());
        "disk" InUse: space.disk(0, &image);
    });
    Ok(rows)
}

fn cell_rows(zero: &Cell, one: &Cell) -> Rows {
    let image = |cell: &Cell| cell.image().unwrap();
    rows! {
        "receive" NoNode: zero.receive(0);
        "send" NoNode: zero.send(2);
        "save" WrongMark: zero.save(image(zero).mark + 1);
        "save" WrongMark: zero.save(image(zero).mark - 1);
        "raise" NotDirector: one.raise();
        "collect" BadArgument: markring::collect::<Refusal>(&[], |_, _| Ok(()));
    }
}

// One of two nodes with a register and a slot, in this cycle: with or without an object, and with
// one message for the other node, which has received up to the other number.
fn linked(own: u64, cycle: u64, object: bool, sent: &[u8], received: u64) -> Vec<u8> {
    let mut image = spelled(&[(3, 0x4D_5202), (1, 2), (1, own), (2, 1), (4, 1)]);
    image.extend(spelled(&[(8, cycle), (8, cycle), (8, cycle), (4, 0)]));
    image.extend(spelled(&[(1, 0), (8, 0), (8, 0), (1, 0)]));
    image.extend(spelled(&[(8, cycle)][own as usize..]));
    let slot = [(1, 1), (8, 1), (8, 0), (8, 0), (1, 1), (1, 0)];
    image.extend(spelled(&[(1, 0), (4, u64::from(object))]));
    image.extend(spelled(if object { &slot } else { &[] }));
    image.extend(spelled(&[(4, 0), (4, 0), (4, 0), (4, 0)]));
    image.extend(sent);
    image.extend(spelled(&[(8, received)]));
    image
}

// Node 1 receives from node 0, which continue from these images.
fn received(zero: &[u8], one: &[u8]) -> Result<Option<Taken>> {
    let space = Space::new(2, 1, 1, 0)?;
    space.disk(0, zero)?;
    space.disk(1, one)?;
    space.open()?;
    let cells = space.cells()?;
    assert!(cells[0].send(1)?);
    cells[1].receive(0)
}

fn received_rows() -> Rows {
    let nothing = spelled(&[(8, 0), (4, 0)]);
    let spent = spelled(&[(8, LAST), (4, 0)]);
    // A letter of cycle 2 comes to a node that has joined none.
    let letter = spelled(&[(8, 0), (4, 1), (8, 2), (1, 4), (4, 9), (1, 0)]);
    // A Get of the object 1.0.1.
    let get = [
        (8, 0),
        (4, 1),
        (8, 0),
        (1, 6),
        (1, 1),
        (4, 0),
        (8, 1),
        (1, 0),
        (4, 7),
    ];
    let get = spelled(&get);
    let [with_letter, new] = [
        linked(0, 2, false, &letter, 0),
        linked(1, 0, false, &nothing, 0),
    ];
    let [with_get, last] = [
        linked(0, 0, false, &get, LAST),
        linked(1, 0, true, &spent, 0),
    ];
    rows! {
        "receive" WrongNode: received(&with_letter, &new);
        "receive" LinkSpent: received(&with_get, &last);
    }
}

fn must_be(rows: &Rows) {
    for (name, expected, found) in rows {
        assert_eq!(*found, Some(*expected), "{name}");
    }
}

#[test]
fn events_are_refused_as_documented() -> Result<()> {
    must_be(&event_rows(&pair()?.0));
    must_be(&event_rows(&cell_pair()?.0));
    must_be(&dead_rows()?);
    Ok(())
}

#[test]
fn what_has_no_number_left_is_refused() -> Result<()> {
    must_be(&spent_rows()?);
    Ok(())
}

#[test]
fn nodes_refuse_as_documented() -> Result<()> {
    must_be(&node_rows()?);
    Ok(())
}

#[test]
fn spaces_and_cells_refuse_as_documented() -> Result<()> {
    must_be(&space_rows()?);
    let (zero, one) = cell_pair()?;
    must_be(&cell_rows(&zero, &one));
    must_be(&received_rows());
    Ok(())
}

// The refusals that the documentation of each call names, in its section on errors.
fn documented(source: &str) -> BTreeSet<(String, String)> {
    let (mut pairs, mut names, mut inside) = (BTreeSet::new(), Vec::new(), false);
    for line in source.lines().map(str::trim) {
        if let Some(text) = line.strip_prefix("///") {
            inside |= text.trim() == "# Errors";
            let words = text.split('`').skip(1).step_by(2).filter(|_| inside);
            names.extend(words.filter(|it| is_refusal(it)).map(str::to_string));
            continue;
        }
        let call = line.trim_start_matches("pub ").strip_prefix("fn ");
        if let Some(call) = call.and_then(|it| it.split(['(', '<']).next()) {
            pairs.extend(names.iter().map(|it| (call.to_string(), it.clone())));
        }
        (names, inside) = (Vec::new(), false);
    }
    pairs
}

fn is_refusal(word: &str) -> bool {
    const ELSEWHERE: [&str; 4] = ["Memory", "Disk", "Closed", "ImageTooLarge"];
    let is_name = word.starts_with(char::is_uppercase) && !word.contains(':');
    is_name && !ELSEWHERE.contains(&word)
}

#[test]
fn each_refusal_that_is_documented_is_tried() -> Result<()> {
    let (zero, one) = cell_pair()?;
    let rows = [
        event_rows(&pair()?.0),
        dead_rows()?,
        spent_rows()?,
        node_rows()?,
        space_rows()?,
        cell_rows(&zero, &one),
        received_rows(),
    ];
    let name = |it: &(&str, Refusal, _)| (it.0.to_string(), format!("{:?}", it.1));
    let tried: BTreeSet<_> = rows.concat().iter().map(name).collect();
    let sources = [
        include_str!("../src/events.rs"),
        include_str!("../src/node.rs"),
        include_str!("../src/space.rs"),
    ];
    let found: BTreeSet<_> = sources.iter().flat_map(|it| documented(it)).collect();
    assert!(found.len() > 90, "only {} were found", found.len());
    // A cell sends no more than a window past what the other has saved.
    let never = ("receive".to_string(), "OutOfOrder".to_string());
    let missing: Vec<_> = found.difference(&tried).collect();
    assert_eq!(missing, [&never]);
    let unknown: Vec<_> = tried.difference(&found).collect();
    assert!(unknown.is_empty(), "not documented: {unknown:?}");
    Ok(())
}
