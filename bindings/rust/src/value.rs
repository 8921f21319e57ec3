//! Plain values: references, events, answers, objects, and a node in numbers.

use crate::ffi::RawWork;
use crate::ffi::{RawAnswer, RawEvent, RawFreed, RawLink, RawObject, RawRef, RawShape, RawState};
use crate::{Events, Refusal, Result};
use core::fmt;
use core::ops::Range;

/// A reference `node.slot.generation`. It names one object, forever.
///
/// A value of this type keeps no object alive. Only registers, places, letters and messages do.
#[derive(Clone, Copy, Debug, PartialEq, Eq, Hash, PartialOrd, Ord)]
pub struct Ref {
    /// The node that owns the object.
    pub node: u8,
    /// The object's slot there.
    pub slot: u32,
    /// The generation of the object in its slot, from 1 on.
    pub generation: u64,
}

impl fmt::Display for Ref {
    fn fmt(&self, f: &mut fmt::Formatter<'_>) -> fmt::Result {
        write!(f, "{}.{}.{}", self.node, self.slot, self.generation)
    }
}

impl Ref {
    // Generation 0 means nothing.
    pub(crate) fn from_raw(raw: RawRef) -> Option<Self> {
        (raw.generation != 0).then(|| raw.named())
    }

    pub(crate) const fn to_raw(self) -> RawRef {
        RawRef {
            node: self.node,
            slot: self.slot,
            generation: self.generation,
        }
    }
}

/// The colour of a node or of the token.
#[derive(Clone, Copy, Debug, PartialEq, Eq, Hash)]
pub enum Colour {
    /// No work was received since the token last left.
    White,
    /// Work may have been received.
    Black,
}

impl Colour {
    fn from_raw(raw: u8) -> Self {
        if raw == 0 {
            Colour::White
        } else {
            Colour::Black
        }
    }
}

/// A letter, without its bytes.
#[derive(Clone, Copy, Debug, PartialEq, Eq, Hash)]
pub struct Letter {
    /// The node that sent it.
    pub from: u8,
    /// Its label.
    pub label: u32,
    /// The first reference in it, if any.
    pub reference: Option<Ref>,
    /// How many registers get its content: as many as were sent, and at least one.
    pub registers: u32,
    /// How many bytes it has.
    pub bytes: usize,
}

/// What a sweep did.
#[derive(Clone, Copy, Debug, PartialEq, Eq, Hash)]
pub struct Freed {
    /// How many objects were freed.
    pub count: u32,
    /// Whether all slots are swept now.
    pub done: bool,
}

/// What the collector's share of a turn did.
#[derive(Clone, Copy, Debug, PartialEq, Eq, Hash)]
pub struct Work {
    /// How many early messages were received. A cell's are 0.
    pub received: u64,
    /// How many objects were scanned.
    pub scanned: u64,
    /// Whether the token was passed, or node 0 decided.
    pub passed: bool,
    /// How many objects the sweep freed, if slots were swept.
    pub freed: Option<u32>,
    /// Whether grey objects are left, or slots to be swept.
    pub more: bool,
}

impl Work {
    pub(crate) fn from_raw(raw: &RawWork) -> Self {
        Work {
            received: raw.received,
            scanned: raw.scanned,
            passed: raw.passed != 0,
            freed: (raw.swept != 0).then_some(raw.freed),
            more: raw.more != 0,
        }
    }
}

/// Why the collector's share of a turn ended early, and what it had done. In a function that returns
/// a [`Refusal`], `?` makes the refusal of it.
#[derive(Clone, Copy, Debug, PartialEq, Eq, Hash)]
pub struct Stopped {
    /// Why.
    pub refusal: Refusal,
    /// What was done.
    pub done: Work,
}

impl From<Stopped> for Refusal {
    fn from(it: Stopped) -> Self {
        it.refusal
    }
}

impl fmt::Display for Stopped {
    fn fmt(&self, f: &mut fmt::Formatter<'_>) -> fmt::Result {
        self.refusal.fmt(f)
    }
}

#[cfg(feature = "std")]
impl std::error::Error for Stopped {}

/// What became of the token.
#[derive(Clone, Copy, Debug, PartialEq, Eq, Hash)]
pub enum Passed {
    /// The node sent it on, with this colour and sum.
    On {
        /// The token's colour.
        colour: Colour,
        /// The token's sum.
        sum: i64,
    },
    /// Node 0 sent it around again, since marking may not have ended.
    Again,
    /// Node 0 found that the marking of this cycle has ended.
    Ended(u64),
}

/// What became of a frame.
#[derive(Clone, Copy, Debug, PartialEq, Eq, Hash)]
pub enum Taken {
    /// The message was received.
    Received,
    /// The message had been received before.
    Repeat,
    /// The message came before its turn. The node keeps it until then, unless its position is
    /// occupied.
    Early,
    /// The frame was an acknowledgement.
    Acknowledged,
}

/// An event of a node. `register`, `source` and `object` are numbers of registers; `object` is the
/// register that refers to the object.
#[derive(Clone, Copy, Debug, PartialEq, Eq, Hash)]
#[allow(missing_docs)] // the fields are those of `Events`
pub enum Event {
    /// See [`Events::alloc`](crate::Events::alloc).
    Alloc { register: u16, places: u8 },
    /// See [`Events::copy`](crate::Events::copy).
    Copy { register: u16, source: u16 },
    /// See [`Events::drop_register`](crate::Events::drop_register).
    Drop { register: u16 },
    /// See [`Events::load`](crate::Events::load).
    Load {
        register: u16,
        object: u16,
        place: u8,
    },
    /// See [`Events::store`](crate::Events::store).
    Store {
        object: u16,
        place: u8,
        register: u16,
    },
    /// See [`Events::clear`](crate::Events::clear).
    Clear { object: u16, place: u8 },
    /// See [`Events::word`](crate::Events::word).
    Word { object: u16 },
    /// See [`Events::set_word`](crate::Events::set_word).
    SetWord { object: u16, word: u64 },
    /// See [`Events::give`](crate::Events::give).
    Give { to: u8, label: u32, register: u16 },
    /// See [`Events::accept`](crate::Events::accept).
    Accept { register: u16 },
    /// See [`Events::put`](crate::Events::put).
    Put {
        object: u16,
        place: u8,
        register: u16,
    },
    /// See [`Events::get`](crate::Events::get).
    Get { object: u16, place: u8, label: u32 },
    /// See [`Events::resolve`](crate::Events::resolve).
    Resolve { register: u16, reference: Ref },
    /// See [`Events::reclaim`](crate::Events::reclaim).
    Reclaim,
    /// See [`Events::reclaim_young`](crate::Events::reclaim_young).
    ReclaimYoung,
    /// See [`Events::begin`](crate::Events::begin).
    Begin,
    /// See [`Events::scan`](crate::Events::scan).
    Scan,
    /// See [`Events::pass`](crate::Events::pass).
    Pass,
    /// See [`Events::sweep`](crate::Events::sweep).
    Sweep { count: u32 },
    /// See [`Events::next`](crate::Events::next).
    Next { from: u8 },
}

impl Event {
    // The number of the event's kind, and its fields.
    #[rustfmt::skip]
    pub(crate) fn to_raw(self) -> RawEvent {
        let kind = |kind| RawEvent { kind, ..RawEvent::default() };
        match self {
            Event::Alloc { register, places } => {
                RawEvent { reg: register, place: places, ..kind(1) }
            }
            Event::Copy { register, source } => RawEvent { reg: register, source, ..kind(2) },
            Event::Drop { register } => RawEvent { reg: register, ..kind(3) },
            Event::Load { register, object, place } => {
                RawEvent { reg: register, object, place, ..kind(4) }
            }
            Event::Store { object, place, register } => {
                RawEvent { object, place, reg: register, ..kind(5) }
            }
            Event::Clear { object, place } => RawEvent { object, place, ..kind(6) },
            Event::Word { object } => RawEvent { object, ..kind(7) },
            Event::SetWord { object, word } => RawEvent { object, word, ..kind(8) },
            Event::Give { to, label, register } => {
                RawEvent { node: to, label, reg: register, ..kind(9) }
            }
            Event::Accept { register } => RawEvent { reg: register, ..kind(10) },
            Event::Put { object, place, register } => {
                RawEvent { object, place, reg: register, ..kind(11) }
            }
            Event::Get { object, place, label } => RawEvent { object, place, label, ..kind(12) },
            Event::Resolve { register, reference: Ref { node, slot, generation } } => {
                RawEvent { reg: register, node, count: slot, word: generation, ..kind(24) }
            }
            Event::Reclaim => kind(20),
            Event::ReclaimYoung => kind(21),
            Event::Begin => kind(13),
            Event::Scan => kind(14),
            Event::Pass => kind(15),
            Event::Sweep { count } => RawEvent { count, ..kind(16) },
            Event::Next { from } => RawEvent { node: from, ..kind(17) },
        }
    }
}

/// The answer to an event.
#[derive(Clone, Copy, Debug, PartialEq, Eq, Hash)]
pub enum Answer {
    /// The event is done.
    Done,
    /// The reference to the new object.
    New(Ref),
    /// The content of the place.
    Value(Option<Ref>),
    /// The object's word.
    Word(u64),
    /// The number of the message on its link.
    Sent(u64),
    /// The letter.
    Letter(Letter),
    /// The cycle that begins.
    Begun(u64),
    /// The object whose places were shaded.
    Scanned(Ref),
    /// What became of the token.
    Passed(Passed),
    /// What the sweep did.
    Freed(Freed),
    /// What became of the frame.
    Taken(Taken),
    /// How many private objects were freed.
    Reclaimed(u32),
}

impl Answer {
    // Panics if the kind of the answer is unknown, since then library and crate don't belong
    // together.
    pub(crate) fn from_raw(raw: &RawAnswer) -> Self {
        match raw.kind {
            0 => Answer::Done,
            1 => Answer::New(raw.object()),
            2 => Answer::Value(Ref::from_raw(raw.reference)),
            3 => Answer::Word(raw.number),
            4 => Answer::Sent(raw.number),
            5 => Answer::Letter(raw.letter()),
            6 => Answer::Begun(raw.number),
            7 => Answer::Scanned(raw.object()),
            8..=10 => Answer::Passed(raw.passed()),
            11 => Answer::Freed(raw.freed()),
            12..=14 => Answer::Taken(raw.taken()),
            15 => Answer::Reclaimed(raw.count),
            kind => panic!("the library gave an answer of the unknown kind {kind}"),
        }
    }
}

impl RawRef {
    // The reference, which isn't nothing.
    fn named(self) -> Ref {
        Ref {
            node: self.node,
            slot: self.slot,
            generation: self.generation,
        }
    }
}

impl RawAnswer {
    // The reference of an answer that has one.
    pub(crate) fn object(&self) -> Ref {
        self.reference.named()
    }

    pub(crate) fn letter(&self) -> Letter {
        Letter {
            from: self.node,
            label: self.label,
            reference: Ref::from_raw(self.reference),
            registers: self.count,
            // (It has at most 65,535.)
            bytes: self.number as usize,
        }
    }

    pub(crate) fn passed(&self) -> Passed {
        match self.kind {
            8 => Passed::On {
                colour: Colour::from_raw(self.colour),
                sum: self.sum,
            },
            9 => Passed::Again,
            _ => Passed::Ended(self.number),
        }
    }

    pub(crate) fn freed(&self) -> Freed {
        Freed {
            count: self.count,
            done: self.done != 0,
        }
    }

    pub(crate) fn taken(&self) -> Taken {
        match self.kind {
            12 => Taken::Received,
            13 => Taken::Repeat,
            14 => Taken::Early,
            _ => Taken::Acknowledged,
        }
    }
}

/// The sizes of a space, and its kind: *plain* or *wide*.
#[derive(Clone, Copy, Debug, PartialEq, Eq, Hash)]
#[non_exhaustive]
pub struct Shape {
    /// The number of nodes, 2 to 64.
    pub nodes: u8,
    /// The number of registers of each node, 1 to 256; in a wide space to 65,535.
    pub registers: u16,
    /// The greatest number of slots of each node, 1 to 1,048,576; in a wide space to 16,777,216.
    pub slots: u32,
    /// The greatest number of places of an object: 8; in a wide space 0 to 255.
    pub places: u8,
    /// The greatest number of bytes of an object: 0; in a wide space 0 to 16,777,216.
    pub bytes: u32,
    /// Whether the space is wide.
    pub is_wide: bool,
}

impl Shape {
    /// A plain space, whose objects have up to 8 places and no bytes.
    pub const fn plain(nodes: u8, registers: u16, slots: u32) -> Self {
        Shape {
            nodes,
            registers,
            slots,
            places: 8,
            bytes: 0,
            is_wide: false,
        }
    }

    /// A wide space, whose objects have up to this many places and bytes.
    pub const fn wide(nodes: u8, registers: u16, slots: u32, places: u8, bytes: u32) -> Self {
        Shape {
            nodes,
            registers,
            slots,
            places,
            bytes,
            is_wide: true,
        }
    }

    pub(crate) fn to_raw(self) -> RawShape {
        RawShape {
            slots: self.slots,
            bytes: self.bytes,
            registers: self.registers,
            nodes: self.nodes,
            places: self.places,
            wide: u8::from(self.is_wide),
        }
    }
}

/// A node in numbers.
#[derive(Clone, Copy, Debug, PartialEq, Eq, Hash)]
pub struct State {
    /// The number of nodes of the space.
    pub nodes: u8,
    /// The node's own number.
    pub own: u8,
    /// The number of registers.
    pub registers: u16,
    /// The greatest number of slots.
    pub slots: u32,
    /// The greatest number of places of an object.
    pub places: u8,
    /// The greatest number of bytes of an object.
    pub bytes: u32,
    /// Whether the space is wide.
    pub is_wide: bool,
    /// The number of objects.
    pub live: u32,
    /// The last cycle that the node joined.
    pub cycle: u64,
    /// The last cycle whose marking the node knows to have ended.
    pub ended: u64,
    /// The last cycle that the node has swept.
    pub swept: u64,
    /// The node's colour.
    pub colour: Colour,
    /// Whether the node has the token.
    pub has_token: bool,
    /// The balance of the messages that count in this cycle.
    pub earlier: i64,
    /// The balance of those that count in the next one.
    pub recent: i64,
    /// The number of grey objects.
    pub grey: u64,
    /// The number of letters that wait. One with several references counts once for each.
    pub letters: u64,
}

impl State {
    pub(crate) fn from_raw(raw: &RawState) -> Self {
        State {
            nodes: raw.nodes,
            own: raw.own,
            registers: raw.registers,
            slots: raw.slots,
            places: raw.places,
            bytes: raw.bytes,
            is_wide: raw.wide != 0,
            live: raw.live,
            cycle: raw.cycle,
            ended: raw.ended,
            swept: raw.swept,
            colour: Colour::from_raw(raw.colour),
            has_token: raw.has_token != 0,
            earlier: raw.earlier,
            recent: raw.recent,
            grey: raw.grey,
            letters: raw.letters,
        }
    }
}

/// What a node knows of the two links between it and another node. Each field is the number of the
/// last such message, 0 if there was none.
#[derive(Clone, Copy, Debug, Default, PartialEq, Eq, Hash)]
pub struct Link {
    /// Ever appended for the other node.
    pub appended: u64,
    /// Of these, released.
    pub released: u64,
    /// Of these, acknowledged by the other node.
    pub acknowledged: u64,
    /// Received from the other node.
    pub received: u64,
    /// Of these, held by a saved state.
    pub received_saved: u64,
}

impl Link {
    pub(crate) fn from_raw(raw: &RawLink) -> Self {
        Link {
            appended: raw.appended,
            released: raw.released,
            acknowledged: raw.acknowledged,
            received: raw.received,
            received_saved: raw.received_saved,
        }
    }
}

/// Whether an object was made since the last reclaim of its node.
#[derive(Clone, Copy, Debug, PartialEq, Eq, Hash)]
pub enum Age {
    /// It was there then, or it was shared when it was made.
    Old,
    /// It was made since then.
    Young,
    /// It was made since then, and an old object may refer to it.
    Remembered,
}

/// An object of a node, except for its bytes and what its places hold.
#[derive(Clone, Copy, Debug, PartialEq, Eq, Hash)]
#[non_exhaustive]
pub struct Object {
    /// The reference to it, which also says its slot.
    pub reference: Ref,
    /// Its word.
    pub word: u64,
    /// How many places it has.
    pub places: u8,
    /// How many bytes it has.
    pub bytes: u32,
    /// Whether it has the mark of the node's cycle, as every new object has.
    pub is_marked: bool,
    /// Whether other nodes may know it.
    pub is_shared: bool,
    /// Its age.
    pub age: Age,
}

impl Object {
    pub(crate) fn from_raw(raw: &RawObject) -> Self {
        Object {
            reference: raw.reference.named(),
            word: raw.word,
            places: raw.places,
            bytes: raw.bytes,
            is_marked: raw.marked != 0,
            is_shared: raw.shared != 0,
            age: match raw.age {
                0 => Age::Old,
                1 => Age::Young,
                _ => Age::Remembered,
            },
        }
    }
}

/// An object that was freed; see [`Events::freed`](crate::Events::freed).
#[derive(Clone, Copy, Debug, PartialEq, Eq, Hash)]
pub struct Gone {
    /// The reference that it had.
    pub reference: Ref,
    /// The word that it had.
    pub word: u64,
}

impl Gone {
    pub(crate) fn from_raw(raw: &RawFreed) -> Self {
        Gone {
            reference: raw.reference.named(),
            word: raw.word,
        }
    }
}

/// The objects of a node; see [`Events::objects`].
#[derive(Debug)]
pub struct Objects<'a, T> {
    node: &'a T,
    slots: Range<u32>,
}

impl<'a, T> Objects<'a, T> {
    pub(crate) fn new(node: &'a T, slots: u32) -> Self {
        Objects {
            node,
            slots: 0..slots,
        }
    }
}

impl<T: Events> Iterator for Objects<'_, T> {
    type Item = Result<Object>;

    fn next(&mut self) -> Option<Result<Object>> {
        let node = self.node;
        self.slots.find_map(|slot| node.object(slot).transpose())
    }
}

/// A node's image: the node as bytes, and the mark that says which image it is.
#[derive(Clone, Debug, PartialEq, Eq)]
#[must_use = "an image that isn't stored saves nothing"]
pub struct Image {
    /// What to store.
    pub bytes: alloc::vec::Vec<u8>,
    /// What to pass to [`Node::kept`](crate::Node::kept), or to a cell's `save`, once the bytes are
    /// stored.
    pub mark: u64,
}

/// What happened to a node since its last image or batch, as bytes, and its mark.
#[derive(Clone, Debug, PartialEq, Eq)]
#[must_use = "a batch that isn't stored saves nothing"]
pub struct Batch {
    /// What to store behind the image and the batches before it.
    pub bytes: alloc::vec::Vec<u8>,
    /// What to pass to [`Node::kept`](crate::Node::kept) once the bytes are stored.
    pub mark: u64,
}

/// A released message as bytes.
#[derive(Clone, Debug, PartialEq, Eq)]
#[must_use]
pub struct Frame {
    /// The message's number on its link.
    pub number: u64,
    /// What to send.
    pub bytes: alloc::vec::Vec<u8>,
}
