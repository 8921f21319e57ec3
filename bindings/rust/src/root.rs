//! Registers that are chosen and emptied automatically.

use crate::{Events, Letter, Ref, Refusal, Result};
use alloc::vec::Vec;
use core::cell::RefCell;
use core::fmt;
use core::ops::Range;

/// A range of a node's registers, from which [`Root`]s are made.
///
/// Use these registers by roots alone. After a cell was reopened its registers hold what was saved,
/// so drop all roots and this value before, and make another one.
///
/// ```
/// use markring::{Node, Roots};
///
/// # fn main() -> markring::Result<()> {
/// let node = Node::new(2, 8, 16, 0)?;
/// let roots = Roots::new(&node, 0..8);
///
/// // A pair that refers to an object.
/// let pair = roots.alloc(2)?;
/// let object = roots.alloc(0)?;
/// object.set_word(5)?;
/// pair.store(0, &object)?;
/// drop(object);
///
/// let first = pair.load(0)?.expect("the place was filled");
/// assert_eq!(first.word()?, 5);
/// assert!(pair.load(1)?.is_none());
/// # Ok(())
/// # }
/// ```
pub struct Roots<'n, N: Events> {
    node: &'n N,
    // Registers that no root uses, the next one last.
    free: RefCell<Vec<u16>>,
    // As these, but they couldn't be emptied, since the cell was closed.
    stale: RefCell<Vec<u16>>,
}

impl<'n, N: Events> Roots<'n, N> {
    /// Makes roots of these registers.
    #[must_use]
    pub fn new(node: &'n N, registers: Range<u16>) -> Self {
        Roots {
            node,
            stale: RefCell::new(Vec::with_capacity(registers.len())),
            free: RefCell::new(registers.rev().collect()),
        }
    }

    /// The node or the cell.
    #[must_use]
    pub fn node(&self) -> &'n N {
        self.node
    }

    /// How many registers no root uses.
    #[must_use]
    pub fn free(&self) -> usize {
        self.free.borrow().len() + self.stale.borrow().len()
    }

    /// Makes a new object with this many empty places.
    ///
    /// # Errors
    ///
    /// `NoRegister` if no register is left; those of [`Events::alloc`].
    pub fn alloc(&self, places: u8) -> Result<Root<'_, N>> {
        let filled = self.fill(|register| self.node.alloc(register, places).map(Some))?;
        filled.ok_or(Refusal::EmptyRegister)
    }

    /// Resolves a reference that the program kept elsewhere.
    ///
    /// # Errors
    ///
    /// `NoRegister` if no register is left; those of [`Events::resolve`].
    pub fn resolve(&self, reference: Ref) -> Result<Root<'_, N>> {
        let filled = self.fill(|register| {
            self.node.resolve(register, reference)?;
            Ok(Some(reference))
        })?;
        filled.ok_or(Refusal::EmptyRegister)
    }

    /// Accepts the oldest letter that waits, if any, and returns its sender, its label, the
    /// references in it and its bytes.
    ///
    /// # Errors
    ///
    /// `NoRegister` if no register is left, or too few that follow each other for the references of
    /// the letter; `Closed`, `Memory`. The letter stays.
    pub fn accept(&self) -> Result<Option<Accepted<'_, N>>> {
        let (count, bytes) = match self.node.letter() {
            Ok(letter) => (letter.registers, self.node.letter_bytes()?),
            Err(Refusal::NoLetter) => (1, Vec::new()),
            Err(refusal) => return Err(refusal),
        };
        // (It is at most 255.)
        let registers = self.take_row(count as u16)?;
        match self.node.accept(registers.start) {
            Ok(letter) => self.accepted(&letter, bytes, registers).map(Some),
            Err(refusal) => {
                self.free.borrow_mut().extend(registers);
                (refusal == Refusal::NoLetter)
                    .then_some(None)
                    .ok_or(refusal)
            }
        }
    }

    // The letter whose references these registers got.
    fn accepted(
        &self,
        letter: &Letter,
        bytes: Vec<u8>,
        registers: Range<u16>,
    ) -> Result<Accepted<'_, N>> {
        let mut roots = registers.map(|register| {
            let reference = self.node.register(register)?;
            let root = reference.map(|reference| Root {
                roots: self,
                register,
                reference,
            });
            if root.is_none() {
                self.give_back(register);
            }
            Ok(root)
        });
        Ok(Accepted {
            from: letter.from,
            label: letter.label,
            root: roots.next().transpose()?.flatten(),
            more: roots.collect::<Result<_>>()?,
            bytes,
        })
    }

    /// Sends a letter with these references, or nothings, and bytes to the node `to` of a wide
    /// space. Returns the message's number.
    ///
    /// # Errors
    ///
    /// `NoRegister` if too few registers that follow each other are left; those of
    /// [`Events::post`].
    pub fn post(
        &self,
        to: u8,
        label: u32,
        references: &[Option<&Root<'_, N>>],
        bytes: &[u8],
    ) -> Result<u64> {
        let count = u8::try_from(references.len()).map_err(|_| Refusal::TooManyFields)?;
        let registers = self.take_row(count.into())?;
        let first = registers.start;
        let copied = registers
            .clone()
            .zip(references)
            .try_for_each(|(register, root)| {
                root.map_or(Ok(()), |root| self.node.copy(register, root.register))
            });
        let sent = copied.and_then(|()| self.node.post(to, label, first, count, bytes));
        for (register, root) in registers.zip(references) {
            let emptied = root.is_none() || self.node.drop_register(register).is_ok();
            let list = if emptied { &self.free } else { &self.stale };
            list.borrow_mut().push(register);
        }
        sent
    }

    /// Sends a letter without a reference. Returns the message's number.
    ///
    /// # Errors
    ///
    /// `NoRegister` if no register is left; those of [`Events::give`].
    pub fn give_nothing(&self, to: u8, label: u32) -> Result<u64> {
        let register = self.take()?;
        let sent = self.node.give(to, label, register);
        self.give_back(register);
        sent
    }

    // Fills a register by the call, and returns it unless its content is nothing.
    fn fill(&self, call: impl FnOnce(u16) -> Result<Option<Ref>>) -> Result<Option<Root<'_, N>>> {
        let register = self.take()?;
        match call(register) {
            Ok(Some(reference)) => Ok(Some(Root {
                roots: self,
                register,
                reference,
            })),
            Ok(None) => {
                self.give_back(register);
                Ok(None)
            }
            Err(refusal) => {
                self.give_back(register);
                Err(refusal)
            }
        }
    }

    // An empty register.
    fn take(&self) -> Result<u16> {
        if let Some(register) = self.free.borrow_mut().pop() {
            return Ok(register);
        }
        let Some(register) = self.stale.borrow_mut().pop() else {
            return Err(Refusal::NoRegister);
        };
        match self.node.drop_register(register) {
            Ok(()) | Err(Refusal::EmptyRegister) => Ok(register),
            Err(refusal) => {
                self.stale.borrow_mut().push(register);
                Err(refusal)
            }
        }
    }

    // This many empty registers that follow each other.
    fn take_row(&self, count: u16) -> Result<Range<u16>> {
        match count {
            0 => return Ok(0..0),
            1 => return self.take().map(|register| register..register + 1),
            _ => {}
        }
        let mut free = self.free.borrow_mut();
        free.sort_unstable_by(|one, other| other.cmp(one));
        let row = free
            .windows(count.into())
            .find(|row| row[0] - row[row.len() - 1] == count - 1);
        let first = row.and_then(|row| row.last().copied());
        let first = first.ok_or(Refusal::NoRegister)?;
        free.retain(|it| !(first..first + count).contains(it));
        Ok(first..first + count)
    }

    // Takes back an empty register.
    fn give_back(&self, register: u16) {
        self.free.borrow_mut().push(register);
    }
}

impl<N: Events> fmt::Debug for Roots<'_, N> {
    fn fmt(&self, f: &mut fmt::Formatter<'_>) -> fmt::Result {
        f.debug_struct("Roots")
            .field("free", &self.free())
            .finish_non_exhaustive()
    }
}

/// A letter that was accepted into a [`Root`].
#[derive(Debug)]
#[must_use]
pub struct Accepted<'r, N: Events> {
    /// The node that sent it.
    pub from: u8,
    /// Its label.
    pub label: u32,
    /// The first reference in it, if any.
    pub root: Option<Root<'r, N>>,
    /// The further ones of a letter with several, in order.
    pub more: Vec<Option<Root<'r, N>>>,
    /// Its bytes.
    pub bytes: Vec<u8>,
}

/// A reference in a register of its own. The object lives at least as long as this value, and the
/// register is emptied when the value is dropped.
#[must_use = "the register is emptied when the root is dropped"]
pub struct Root<'r, N: Events> {
    roots: &'r Roots<'r, N>,
    register: u16,
    reference: Ref,
}

impl<'r, N: Events> Root<'r, N> {
    /// The reference.
    #[must_use]
    pub fn reference(&self) -> Ref {
        self.reference
    }

    /// The number of the register.
    #[must_use]
    pub fn register(&self) -> u16 {
        self.register
    }

    /// A second root with the same reference.
    ///
    /// # Errors
    ///
    /// `NoRegister` if no register is left; `Closed`.
    pub fn duplicate(&self) -> Result<Root<'r, N>> {
        let node = self.roots.node;
        let filled = self.roots.fill(|register| {
            node.copy(register, self.register)?;
            Ok(Some(self.reference))
        })?;
        filled.ok_or(Refusal::EmptyRegister)
    }

    /// The content of the object's place.
    ///
    /// # Errors
    ///
    /// `NoRegister` if no register is left; those of [`Events::load`].
    pub fn load(&self, place: u8) -> Result<Option<Root<'r, N>>> {
        let node = self.roots.node;
        self.roots
            .fill(|register| node.load(register, self.register, place))
    }

    /// The object's place gets this reference.
    ///
    /// # Errors
    ///
    /// Those of [`Events::store`].
    pub fn store(&self, place: u8, value: &Root<'_, N>) -> Result<()> {
        self.roots.node.store(self.register, place, value.register)
    }

    /// Empties the object's place.
    ///
    /// # Errors
    ///
    /// Those of [`Events::clear`].
    pub fn clear(&self, place: u8) -> Result<()> {
        self.roots.node.clear(self.register, place)
    }

    /// The object's word.
    ///
    /// # Errors
    ///
    /// Those of [`Events::word`].
    pub fn word(&self) -> Result<u64> {
        self.roots.node.word(self.register)
    }

    /// The object gets the word.
    ///
    /// # Errors
    ///
    /// Those of [`Events::set_word`].
    pub fn set_word(&self, word: u64) -> Result<()> {
        self.roots.node.set_word(self.register, word)
    }

    /// All bytes of the object.
    ///
    /// # Errors
    ///
    /// Those of [`Events::bytes`].
    pub fn bytes(&self) -> Result<Vec<u8>> {
        self.roots.node.bytes(self.register)
    }

    /// The object gets these bytes in place of its own.
    ///
    /// # Errors
    ///
    /// Those of [`Events::set_bytes`].
    pub fn set_bytes(&self, bytes: &[u8]) -> Result<()> {
        self.roots.node.set_bytes(self.register, bytes)
    }

    /// Overwrites bytes of the object, from `offset` on.
    ///
    /// # Errors
    ///
    /// Those of [`Events::patch`].
    pub fn patch(&self, offset: u32, bytes: &[u8]) -> Result<()> {
        self.roots.node.patch(self.register, offset, bytes)
    }

    /// Sends a letter with the reference to the node `to`. Returns the message's number.
    ///
    /// # Errors
    ///
    /// Those of [`Events::give`].
    pub fn give(&self, to: u8, label: u32) -> Result<u64> {
        self.roots.node.give(to, label, self.register)
    }

    /// Asks the owner of another node's object to put a reference or nothing into the object's
    /// place. Returns the message's number.
    ///
    /// # Errors
    ///
    /// `NoRegister` if no register is left; those of [`Events::put`].
    pub fn put(&self, place: u8, value: Option<&Root<'_, N>>) -> Result<u64> {
        let node = self.roots.node;
        if let Some(value) = value {
            return node.put(self.register, place, value.register);
        }
        let empty = self.roots.take()?;
        let sent = node.put(self.register, place, empty);
        self.roots.give_back(empty);
        sent
    }

    /// Asks the owner of another node's object for the content of the object's place. It comes in
    /// a letter with this label. Returns the message's number.
    ///
    /// # Errors
    ///
    /// Those of [`Events::get`].
    pub fn get(&self, place: u8, label: u32) -> Result<u64> {
        self.roots.node.get(self.register, place, label)
    }

    /// Asks the owner of another node's object for its word and `count` of its bytes from `offset`
    /// on. They come in a letter with this label. Returns the message's number.
    ///
    /// # Errors
    ///
    /// Those of [`Events::fetch`].
    pub fn fetch(&self, label: u32, offset: u32, count: u32) -> Result<u64> {
        let node = self.roots.node;
        node.fetch(self.register, label, offset, count)
    }
}

impl<N: Events> Drop for Root<'_, N> {
    fn drop(&mut self) {
        let emptied = self.roots.node.drop_register(self.register);
        let list = if emptied.is_ok() {
            &self.roots.free
        } else {
            &self.roots.stale
        };
        list.borrow_mut().push(self.register);
    }
}

impl<N: Events> fmt::Debug for Root<'_, N> {
    fn fmt(&self, f: &mut fmt::Formatter<'_>) -> fmt::Result {
        write!(f, "Root({} in register {})", self.reference, self.register)
    }
}
