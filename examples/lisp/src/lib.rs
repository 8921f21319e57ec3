//! A small Lisp whose heap is a space: an interpreter runs on each node, in a thread of its own.
//!
//! Each value is an object, except `()`, which is nothing. An object's word has a tag and a payload
//! of 61 bits; a string also has bytes. All that an interpreter works on is in registers
//! ([`Root`]). Calls that wait for a value are objects too ([`eval`]), so the heap alone bounds how
//! deep they nest. Lists that are being shown take a register for each level.
//!
//! `(send NODE VALUE)` sends a reference, and `(receive)` waits for one. A pair of another node is
//! read by a Get and written by a Put, as if it were the node's own. Words and strings come in
//! letters from their owner.

mod eval;
mod read;
pub mod run;

use markring::{Events, Node, Ref, Refusal, Root, Roots};
use run::{Machine, NAMES};
use std::collections::VecDeque;

/// A value: `()`, or an object in a register.
pub type Value<'r> = Option<Root<'r, Node>>;
pub type Result<T> = std::result::Result<T, Fault>;

/// Why a program ended early.
#[derive(Debug)]
pub struct Fault(pub String);

impl From<Refusal> for Fault {
    fn from(refusal: Refusal) -> Self {
        // Only roots use registers, so one that isn't there is one that isn't free.
        Fault(match refusal {
            Refusal::NoRegister => "no register is left".into(),
            other => other.to_string(),
        })
    }
}

fn fault<T>(text: impl Into<String>) -> Result<T> {
    Err(Fault(text.into()))
}

#[derive(Clone, Copy, PartialEq)]
enum Tag {
    Pair,
    Number,
    Symbol,
    String,
    Closure,
    Binding,
    Frame,
    // A pair whose first part is a weak reference: the payload is its slot and generation.
    Weak,
}

const TAGS: [Tag; 8] = [
    Tag::Pair,
    Tag::Number,
    Tag::Symbol,
    Tag::String,
    Tag::Closure,
    Tag::Binding,
    Tag::Frame,
    Tag::Weak,
];
// The bits of a slot in a weak pair.
const SLOT_BITS: u32 = 24;
const TAG_BITS: u32 = 3;
const GREATEST: i64 = (1 << 60) - 1;
const CAR: u8 = 0;
const CDR: u8 = 1;
// The upper two bits of a letter's label say what it is: a value that was sent, the question for an
// object's word or bytes, and the answers to that question and to a Get.
const SENT: u32 = 0;
const ASKED: u32 = 1 << 30;
const DATA: u32 = 2 << 30;
const PLACE: u32 = 3 << 30;
// What is asked for.
const WORD: u32 = 0;
const BYTES: u32 = 1;
// The bytes in a letter with DATA.
const PART: usize = 3;
// Evaluations between two turns of the node.
const STEPS: u32 = 32;

fn copy<'r>(value: &Value<'r>) -> Result<Value<'r>> {
    Ok(value.as_ref().map(Root::duplicate).transpose()?)
}

/// The interpreter of a node.
pub struct Lisp<'r> {
    roots: &'r Roots<'r, Node>,
    machine: &'r Machine<'r>,
    names: Vec<&'static str>,
    globals: Value<'r>,
    // The frame that waits for the value that is evaluated.
    stack: Value<'r>,
    inbox: VecDeque<Value<'r>>,
    // The answers of other nodes, each with its label.
    answers: VecDeque<(u32, Value<'r>)>,
    steps: u32,
}

impl<'r> Lisp<'r> {
    pub fn new(roots: &'r Roots<'r, Node>, machine: &'r Machine<'r>) -> Self {
        Lisp {
            roots,
            machine,
            names: NAMES.split(' ').collect(),
            globals: None,
            stack: None,
            inbox: VecDeque::new(),
            answers: VecDeque::new(),
            steps: STEPS,
        }
    }

    // ## Objects

    // A new object. If the node is full, two collection cycles come first.
    fn alloc(&mut self, places: u8) -> Result<Root<'r, Node>> {
        let (mut made, mut last) = (self.roots.alloc(places), None);
        while matches!(made, Err(Refusal::ArenaFull)) {
            let swept = self.roots.node().state()?.swept;
            if swept >= *last.get_or_insert(swept + 2) {
                break;
            }
            self.machine.ask_for_cycle();
            self.wait_turn()?;
            made = self.roots.alloc(places);
        }
        Ok(made?)
    }

    fn make(&mut self, tag: Tag, payload: i64, places: &[&Value<'r>]) -> Result<Value<'r>> {
        let object = self.alloc(places.len() as u8)?;
        object.set_word((payload << TAG_BITS) as u64 | tag as u64)?;
        for (place, value) in (0..).zip(places) {
            value.as_ref().map_or(Ok(()), |value| object.store(place, value))?;
        }
        Ok(Some(object))
    }

    // A number, unless it doesn't fit.
    fn number(&mut self, number: Option<i64>) -> Result<Value<'r>> {
        match number {
            Some(it) if it.abs() <= GREATEST => self.make(Tag::Number, it, &[]),
            _ => fault("the number is too large"),
        }
    }

    fn symbol(&mut self, name: &str) -> Result<Value<'r>> {
        self.make(Tag::Symbol, self.machine.intern(name), &[])
    }

    fn string(&mut self, text: &str) -> Result<Value<'r>> {
        let made = self.make(Tag::String, text.len() as i64, &[])?;
        made.as_ref().map_or(Ok(()), |object| object.set_bytes(text.as_bytes()))?;
        Ok(made)
    }

    fn pair(&mut self, car: &Value<'r>, cdr: &Value<'r>) -> Result<Value<'r>> {
        self.make(Tag::Pair, 0, &[car, cdr])
    }

    // A pair that doesn't keep its first part alive, which has to be an object of this node.
    fn weak_pair(&mut self, car: &Value<'r>, cdr: &Value<'r>) -> Result<Value<'r>> {
        let Some(object) = car else { return fault("() isn't an object") };
        let reference = object.reference();
        if reference.node != self.machine.own() {
            return fault("the object is another node's");
        }
        let payload = (reference.generation << SLOT_BITS) as i64 | i64::from(reference.slot);
        self.make(Tag::Weak, payload, &[&None, cdr])
    }

    // The first part of a weak pair; () if it is gone. If the collector hasn't reached it yet, it
    // has to wait for the end of marking.
    fn weak_car(&mut self, pair: &Value<'r>) -> Result<Value<'r>> {
        let Some((Tag::Weak, payload)) = self.word(pair)? else {
            return fault("the value isn't a weak pair");
        };
        let node = pair.as_ref().map_or(0, |pair| pair.reference().node);
        let slot = (payload & ((1 << SLOT_BITS) - 1)) as u32;
        let reference = Ref { node, slot, generation: (payload >> SLOT_BITS) as u64 };
        loop {
            match self.roots.resolve(reference) {
                Ok(root) => return Ok(Some(root)),
                Err(Refusal::NoField) => return Ok(None),
                Err(Refusal::NotNow) => self.wait_turn()?,
                Err(Refusal::Remote) => return fault("the weak pair is another node's"),
                Err(refusal) => return Err(refusal.into()),
            }
        }
    }

    // The tag and the payload, unless the value is ().
    fn word(&mut self, value: &Value<'r>) -> Result<Option<(Tag, i64)>> {
        let Some(object) = value else { return Ok(None) };
        let word = match object.word() {
            Err(Refusal::Remote) => {
                let bytes = self.ask(object, WORD, 8)?;
                bytes.iter().rev().fold(0, |word, byte| word << 8 | u64::from(*byte))
            }
            word => word?,
        };
        Ok(Some((TAGS[(word & 7) as usize], word as i64 >> TAG_BITS)))
    }

    fn load(&mut self, value: &Value<'r>, place: u8) -> Result<Value<'r>> {
        let Some(object) = value else { return fault("() has no parts") };
        match object.load(place) {
            Err(Refusal::Remote) => {
                object.get(place, PLACE)?;
                Ok(self.wait(PLACE)?.1)
            }
            Err(Refusal::NoField) => fault("the value isn't a pair"),
            content => Ok(content?),
        }
    }

    fn store(&mut self, pair: &Value<'r>, place: u8, value: &Value<'r>) -> Result<Value<'r>> {
        let Some(object) = pair else { return fault("() has no parts") };
        let stored = match value {
            Some(value) => object.store(place, value),
            None => object.clear(place),
        };
        match stored {
            Err(Refusal::Remote) => object.put(place, value.as_ref()).map(drop)?,
            stored => stored?,
        }
        Ok(None)
    }

    fn nth(&mut self, list: &Value<'r>, number: usize) -> Result<Value<'r>> {
        let mut rest = copy(list)?;
        for _ in 0..number {
            rest = self.load(&rest, CDR)?;
        }
        self.load(&rest, CAR)
    }

    fn number_of(&mut self, value: &Value<'r>) -> Result<i64> {
        match self.word(value)? {
            Some((Tag::Number, number)) => Ok(number),
            _ => fault("the value isn't a number"),
        }
    }

    fn text_of(&mut self, value: &Value<'r>) -> Result<String> {
        let (Some(object), Some((Tag::String, length))) = (value, self.word(value)?) else {
            return fault("the value isn't a string");
        };
        let bytes = match object.bytes() {
            Err(Refusal::Remote) => self.ask(object, BYTES, length as usize)?,
            bytes => bytes?,
        };
        Ok(String::from_utf8_lossy(&bytes).into_owned())
    }

    // Whether both are (), the same number or symbol, or the same object.
    fn is_same(&mut self, one: &Value<'r>, other: &Value<'r>) -> Result<bool> {
        let (first, second) = (self.word(one)?, self.word(other)?);
        let is_plain = matches!(first, None | Some((Tag::Number | Tag::Symbol, _)));
        let names = [one, other].map(|it| it.as_ref().map(Root::reference));
        Ok(names[0] == names[1] || is_plain && first == second)
    }

    // ## Letters

    // A turn of the node. Then questions of other nodes are answered, and letters are sorted. It
    // returns whether anything happened.
    fn turn(&mut self) -> Result<bool> {
        let changed = self.machine.turn()?;
        while let Some(letter) = self.roots.accept()? {
            match (letter.label & PLACE, letter.root) {
                (SENT, root) => self.inbox.push_back(root),
                (ASKED, Some(object)) => self.answer(letter.from, letter.label, &object)?,
                (_, root) => self.answers.push_back((letter.label, root)),
            }
        }
        Ok(changed)
    }

    // A turn of a node that has nothing else to do.
    fn wait_turn(&mut self) -> Result<()> {
        if self.turn()? {
            Ok(())
        } else {
            self.machine.pause()
        }
    }

    // Sends an object's word or bytes, a few bytes in each letter.
    fn answer(&mut self, to: u8, label: u32, object: &Root<'r, Node>) -> Result<()> {
        let is_word = label & !PLACE == WORD;
        let bytes = if is_word { object.word()?.to_le_bytes().into() } else { object.bytes()? };
        for part in bytes.chunks(PART) {
            let part = part.iter().rev().fold(0, |label, byte| label << 8 | u32::from(*byte));
            self.roots.give_nothing(to, DATA | part)?;
        }
        Ok(())
    }

    // Asks the owner of an object for its word or its bytes, which are this many.
    fn ask(&mut self, object: &Root<'r, Node>, what: u32, length: usize) -> Result<Vec<u8>> {
        let mut bytes = Vec::new();
        if length > 0 {
            object.give(object.reference().node, ASKED | what)?;
        }
        while bytes.len() < length {
            bytes.extend_from_slice(&self.wait(DATA)?.0.to_le_bytes()[..PART]);
        }
        bytes.truncate(length);
        Ok(bytes)
    }

    fn wait(&mut self, kind: u32) -> Result<(u32, Value<'r>)> {
        loop {
            match self.answers.pop_front() {
                Some((label, root)) if label & PLACE == kind => return Ok((label, root)),
                _ => self.wait_turn()?,
            }
        }
    }

    fn send(&mut self, to: u8, value: &Value<'r>) -> Result<Value<'r>> {
        match value {
            Some(value) => value.give(to, SENT)?,
            None => self.roots.give_nothing(to, SENT)?,
        };
        Ok(None)
    }

    fn receive(&mut self) -> Result<Value<'r>> {
        loop {
            match self.inbox.pop_front() {
                Some(value) => return Ok(value),
                None => self.wait_turn()?,
            }
        }
    }

    /// Answers questions until all nodes have ended their programs.
    pub fn serve(&mut self) -> Result<()> {
        while !self.machine.all_ended() {
            self.wait_turn()?;
        }
        Ok(())
    }

    // ## Texts

    /// Evaluates all expressions of a text, and shows the value of the last one.
    pub fn run(&mut self, text: &str) -> Result<String> {
        let mut reader = read::Reader::new(text);
        let mut value = None;
        while let Some(expression) = reader.next(self)? {
            value = self.eval(expression)?;
        }
        self.show(&value)
    }

    // The value as a text, which the reader would read again.
    fn show(&mut self, value: &Value<'r>) -> Result<String> {
        // What follows in each list whose ) isn't shown yet.
        let (mut text, mut open) = (String::new(), Vec::new());
        let mut next = Some(copy(value)?);
        while let Some(item) = next.take() {
            if let Some((Tag::Pair, _)) = self.word(&item)? {
                text.push('(');
                open.push(self.load(&item, CDR)?);
                next = Some(self.load(&item, CAR)?);
                continue;
            }
            text += &self.show_atom(&item)?;
            while next.is_none() {
                let Some(rest) = open.pop() else { break };
                match self.word(&rest)? {
                    None => text.push(')'),
                    Some((Tag::Pair, _)) => {
                        text.push(' ');
                        open.push(self.load(&rest, CDR)?);
                        next = Some(self.load(&rest, CAR)?);
                    }
                    Some(_) => text += &format!(" . {})", self.show_atom(&rest)?),
                }
            }
        }
        Ok(text)
    }

    fn show_atom(&mut self, value: &Value<'r>) -> Result<String> {
        Ok(match self.word(value)? {
            None => "()".into(),
            Some((Tag::Number, number)) => number.to_string(),
            Some((Tag::Symbol, name)) => self.machine.name(name),
            Some((Tag::String, _)) => read::quoted(&self.text_of(value)?),
            Some((Tag::Weak, _)) => "a weak pair".into(),
            Some(_) => "a closure".into(),
        })
    }
}
