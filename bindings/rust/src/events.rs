//! What nodes and cells have in common: their events, and calls that read them.

use crate::node::filled;
use crate::{Answer, Event, Freed, Gone, Letter, Link, Object, Objects, Passed, Ref, Result};
use crate::{State, Stopped, Work};
use alloc::vec::Vec;

/// The events of a node, and calls that read it. [`Node`](crate::Node) has them, and
/// with the feature `spaces` also `Cell`.
///
/// `register`, `source` and `object` are numbers of registers; `object` is the register that refers
/// to the object. An event that is refused changes nothing.
pub trait Events {
    /// Makes a new object with this many empty places. The register gets its reference.
    ///
    /// # Errors
    ///
    /// `NoRegister`, `TooManyFields`, `ArenaFull`, `Memory`.
    fn alloc(&self, register: u16, places: u8) -> Result<Ref>;

    /// The register gets the reference in `source`.
    ///
    /// # Errors
    ///
    /// `NoRegister`, `EmptyRegister`.
    fn copy(&self, register: u16, source: u16) -> Result<()>;

    /// Empties the register.
    ///
    /// # Errors
    ///
    /// `NoRegister`, `EmptyRegister`.
    fn drop_register(&self, register: u16) -> Result<()>;

    /// The register gets the content of the object's place, which is returned.
    ///
    /// # Errors
    ///
    /// `NoRegister`, `EmptyRegister`, `Remote`, `NoField`, `LinkSpent`, `Memory`.
    fn load(&self, register: u16, object: u16, place: u8) -> Result<Option<Ref>>;

    /// The object's place gets the register's reference.
    ///
    /// # Errors
    ///
    /// `NoRegister`, `EmptyRegister`, `Remote`, `NoField`.
    fn store(&self, object: u16, place: u8, register: u16) -> Result<()>;

    /// Empties the object's place.
    ///
    /// # Errors
    ///
    /// `NoRegister`, `EmptyRegister`, `Remote`, `NoField`.
    fn clear(&self, object: u16, place: u8) -> Result<()>;

    /// Returns the object's word.
    ///
    /// # Errors
    ///
    /// `NoRegister`, `EmptyRegister`, `Remote`, `NoField`.
    fn word(&self, object: u16) -> Result<u64>;

    /// The object gets the word.
    ///
    /// # Errors
    ///
    /// `NoRegister`, `EmptyRegister`, `Remote`, `NoField`.
    fn set_word(&self, object: u16, word: u64) -> Result<()>;

    /// Returns how many bytes the object has.
    ///
    /// # Errors
    ///
    /// `NoRegister`, `EmptyRegister`, `Remote`, `NoField`.
    fn bytes_len(&self, object: u16) -> Result<u32>;

    /// Fills the buffer with the object's bytes from `offset` on.
    ///
    /// # Errors
    ///
    /// `NoRegister`, `EmptyRegister`, `Remote`, `NoField`; `NoBytes` if there are fewer. The buffer
    /// is then as it was.
    fn read_bytes(&self, object: u16, offset: u32, buffer: &mut [u8]) -> Result<()>;

    /// Returns all bytes of the object.
    ///
    /// # Errors
    ///
    /// `NoRegister`, `EmptyRegister`, `Remote`, `NoField`, `Memory`.
    fn bytes(&self, object: u16) -> Result<Vec<u8>> {
        let mut bytes = filled(self.bytes_len(object)? as usize)?;
        self.read_bytes(object, 0, &mut bytes)?;
        Ok(bytes)
    }

    /// The object gets these bytes in place of its own.
    ///
    /// # Errors
    ///
    /// `NoRegister`, `EmptyRegister`, `Remote`, `NoField`, `TooManyBytes`, `Memory`.
    fn set_bytes(&self, object: u16, bytes: &[u8]) -> Result<()>;

    /// Overwrites bytes of the object, from `offset` on. It makes them no longer.
    ///
    /// # Errors
    ///
    /// `NoRegister`, `EmptyRegister`, `Remote`, `NoField`, `NoBytes`.
    fn patch(&self, object: u16, offset: u32, bytes: &[u8]) -> Result<()>;

    /// Sends a letter with the label and the content of the register to the node `to`. Returns the
    /// message's number.
    ///
    /// # Errors
    ///
    /// `Congested`, `NoNode`, `SelfSend`, `NoRegister`, `LinkSpent`, `Memory`.
    fn give(&self, to: u8, label: u32, register: u16) -> Result<u64>;

    /// Sends a letter with the label, the contents of `count` registers from `first` on, and these
    /// bytes to the node `to` of a wide space. Returns the message's number.
    ///
    /// ```
    /// use markring::{Events, Node, Shape};
    ///
    /// # fn main() -> markring::Result<()> {
    /// let shape = Shape::wide(2, 8, 16, 4, 100);
    /// let (zero, one) = (Node::with_shape(shape, 0, 0)?, Node::with_shape(shape, 1, 0)?);
    ///
    /// // Two objects, an empty register, and a text.
    /// let objects = [zero.alloc(0, 0)?, zero.alloc(1, 0)?];
    /// zero.post(1, 7, 0, 3, b"two objects")?;
    /// zero.release()?;
    /// for frame in zero.frames(1, 0)? {
    ///     one.take(&frame.bytes)?;
    /// }
    ///
    /// let (letter, text) = one.accept_with_bytes(5)?;
    /// assert_eq!((letter.label, letter.registers), (7, 3));
    /// assert_eq!(text, b"two objects");
    /// assert_eq!([one.register(5)?, one.register(6)?], objects.map(Some));
    /// assert_eq!(one.register(7)?, None);
    /// # Ok(())
    /// # }
    /// ```
    ///
    /// # Errors
    ///
    /// `Congested`, `NoNode`, `SelfSend`, `NoRegister`; `TooManyFields` if an object of the space
    /// has fewer places than `count`, and in a plain space; `TooManyBytes` if it has fewer bytes
    /// than these, and above 65,535; `LinkSpent`, `Memory`.
    fn post(&self, to: u8, label: u32, first: u16, count: u8, bytes: &[u8]) -> Result<u64>;

    /// Removes the oldest letter that waits. The register gets its content; if the letter has
    /// several references, those that follow the register get the others. Its bytes are gone then,
    /// unless they were read before.
    ///
    /// # Errors
    ///
    /// `NoRegister`, `NoLetter`. The letter stays.
    fn accept(&self, register: u16) -> Result<Letter>;

    /// Accepts the oldest letter as [`accept`](Events::accept) does. Its bytes replace those of the
    /// vector.
    ///
    /// # Errors
    ///
    /// `NoLetter`, `NoRegister`, `Memory`. The letter stays; the vector may have other bytes then.
    fn accept_into(&self, register: u16, bytes: &mut Vec<u8>) -> Result<Letter>;

    /// Accepts the oldest letter as [`accept`](Events::accept) does, and returns its bytes, too.
    ///
    /// # Errors
    ///
    /// `NoLetter`, `NoRegister`, `Memory`. The letter stays.
    fn accept_with_bytes(&self, register: u16) -> Result<(Letter, Vec<u8>)> {
        let mut bytes = Vec::new();
        let letter = self.accept_into(register, &mut bytes)?;
        Ok((letter, bytes))
    }

    /// The oldest letter that waits, as [`accept`](Events::accept) would return it.
    ///
    /// # Errors
    ///
    /// `NoLetter`.
    fn letter(&self) -> Result<Letter>;

    /// The bytes of the oldest letter that waits.
    ///
    /// # Errors
    ///
    /// `NoLetter`, `Memory`.
    fn letter_bytes(&self) -> Result<Vec<u8>>;

    /// Asks the owner of another node's object to put the content of the register into the
    /// object's place. Returns the message's number.
    ///
    /// # Errors
    ///
    /// `Congested`, `NoRegister`, `EmptyRegister`, `Local`, `NoField`, `LinkSpent`, `Memory`.
    fn put(&self, object: u16, place: u8, register: u16) -> Result<u64>;

    /// Asks the owner of another node's object for the content of the object's place. It comes in
    /// a letter with this label. Returns the message's number.
    ///
    /// # Errors
    ///
    /// `Congested`, `NoRegister`, `EmptyRegister`, `Local`, `NoField`, `LinkSpent`, `Memory`.
    fn get(&self, object: u16, place: u8, label: u32) -> Result<u64>;

    /// Asks the owner of another node's object, in a wide space, for the object's word and `count`
    /// of its bytes from `offset` on. They come in a letter with this label: the word as 8 bytes,
    /// big-endian, and then the bytes. If the object hasn't all of these, only the word comes, and
    /// if it is gone, no byte. Returns the message's number.
    ///
    /// # Errors
    ///
    /// `Congested`, `NoRegister`, `EmptyRegister`, `Local`; `TooManyBytes` if `count` is above
    /// 65,527, and in a plain space; `LinkSpent`, `Memory`.
    fn fetch(&self, object: u16, label: u32, offset: u32, count: u32) -> Result<u64>;

    /// The register gets a reference to an object of this node that the program kept in a table of
    /// its own: a *weak* reference, which keeps nothing alive and never names another object. It
    /// leads back to the object while that is live and marked.
    ///
    /// # Errors
    ///
    /// `NoRegister`, `Remote`; `NoField` if the object was freed, or marking ended without it, so
    /// the next sweep frees it; `NotNow` if the node marks and hasn't reached it. Then resolve it
    /// again when marking has ended.
    fn resolve(&self, register: u16, reference: Ref) -> Result<()>;

    /// Frees the private objects that nothing needs any more, without the other nodes, and returns
    /// how many these were. An object of a wide space is private until its node sends a reference to
    /// it; from then on only a cycle frees it. It takes time linear in the slots ever used.
    ///
    /// # Errors
    ///
    /// `NothingToDo` if the node has no private object, as always in a plain space; `Memory`.
    fn reclaim(&self) -> Result<u32>;

    /// The same, but only of objects that were made since the last reclaim, of either kind. The
    /// older ones count as needed, and so does what was stored into one of them since then. It takes
    /// time linear in the blocks of 64 slots that have objects made since the last reclaim, in the
    /// registers and in the letters, and writes a byte for each slot.
    ///
    /// # Errors
    ///
    /// `NothingToDo` if no object was made since then, as always in a plain space; `Memory`.
    fn reclaim_young(&self) -> Result<u32>;

    /// Begins the next cycle, and returns its number.
    ///
    /// # Errors
    ///
    /// `NotDirector`, `CycleRunning`, `CyclesSpent`, `LinkSpent`, `Memory`.
    fn begin(&self) -> Result<u64>;

    /// Shades the references in the places of a grey object, which is returned.
    ///
    /// # Errors
    ///
    /// `NothingToDo`, `LinkSpent`, `Memory`.
    fn scan(&self) -> Result<Ref>;

    /// Passes the token on, or decides at node 0 whether marking has ended.
    ///
    /// # Errors
    ///
    /// `NothingToDo`, `LinkSpent`, `Memory`.
    fn pass(&self) -> Result<Passed>;

    /// Looks at the next `count` used slots, and frees the objects there that aren't marked.
    ///
    /// # Errors
    ///
    /// `NothingToDo`, `LinkSpent`, `Memory`.
    fn sweep(&self, count: u32) -> Result<Freed>;

    /// Receives the message from the node `from` that was early and is the next one now.
    ///
    /// # Errors
    ///
    /// `NoNode`, `NothingToDo`, `Memory`. After `WrongNode` and `LinkSpent` that message is lost;
    /// its sender may offer it again.
    fn next(&self, from: u8) -> Result<()>;

    /// Does the collector's share of a turn. It receives the early messages whose turn has come,
    /// from each other node, ascending (not so a `Cell`). Then it scans at most `scans` objects,
    /// passes the token, if that is due, and sweeps `slots` slots, unless that is 0. What fails
    /// with `NothingToDo` is left out.
    ///
    /// # Errors
    ///
    /// `WrongNode` of an early message, `LinkSpent`, `Memory`; with what was done before.
    fn work(&self, scans: u32, slots: u32) -> Result<Work, Stopped>;

    /// Gives the node an event as a value.
    ///
    /// # Errors
    ///
    /// Those of the event.
    fn act(&self, event: Event) -> Result<Answer>;

    /// The node in numbers.
    ///
    /// # Errors
    ///
    /// None today.
    fn state(&self) -> Result<State>;

    /// The links between the node and the node `peer`.
    ///
    /// # Errors
    ///
    /// `NoNode`.
    fn link(&self, peer: u8) -> Result<Link>;

    /// The reference in a register, if any.
    ///
    /// # Errors
    ///
    /// `NoRegister`.
    fn register(&self, register: u16) -> Result<Option<Ref>>;

    /// How many slots were ever used. All objects of the node are in the slots below that.
    ///
    /// # Errors
    ///
    /// None today.
    fn slots(&self) -> Result<u32>;

    /// The object in a slot, if there is one, also if no register refers to it.
    ///
    /// # Errors
    ///
    /// None today.
    fn object(&self, slot: u32) -> Result<Option<Object>>;

    /// The objects of the node, in the order of their slots, also those that no register refers to.
    /// An object that an event makes meanwhile may be left out.
    ///
    /// ```
    /// use markring::{Events, Node};
    ///
    /// # fn main() -> markring::Result<()> {
    /// let node = Node::new(2, 4, 16, 0)?;
    /// let lost = node.alloc(0, 1)?;
    /// node.drop_register(0)?;
    /// let object = node.objects()?.next().expect("it isn't freed yet")?;
    /// assert_eq!(object.reference, lost);
    /// # Ok(())
    /// # }
    /// ```
    ///
    /// # Errors
    ///
    /// None today.
    fn objects(&self) -> Result<Objects<'_, Self>>
    where
        Self: Sized,
    {
        Ok(Objects::new(self, self.slots()?))
    }

    /// What a place of the object in a slot holds, a reference or nothing.
    ///
    /// # Errors
    ///
    /// `NoField` if the slot has no object, or the object has no such place.
    fn place(&self, slot: u32, place: u8) -> Result<Option<Ref>>;

    /// Fills the buffer with bytes of the object in a slot, from `offset` on.
    ///
    /// # Errors
    ///
    /// `NoField` if the slot has no object; `NoBytes` if the object has fewer bytes. The buffer is
    /// then as it was.
    fn read_bytes_at(&self, slot: u32, offset: u32, buffer: &mut [u8]) -> Result<()>;

    /// Lists the objects that are freed from now on, for [`Events::freed`], or drops the list and
    /// lists none. If they are listed already, nothing changes. A new node and a new cell list none.
    ///
    /// While they are listed, a sweep and a reclaim take memory: up to 24 bytes for each object that
    /// they free, and meanwhile for each that a reclaim goes through. Without it they fail with
    /// `Memory`.
    ///
    /// # Errors
    ///
    /// None today.
    fn track_freed(&self, on: bool) -> Result<()>;

    /// The objects that were freed and that no image has which may still be opened, in the order in
    /// which they were freed. Each is returned once: when an image or a batch is kept that was made
    /// after it was freed, or after [`Node::release`](crate::Node::release); of a cell, when it is
    /// saved. (A [`reopen`](crate::Cell::reopen) drops the list.)
    ///
    /// ```
    /// # fn main() -> markring::Result<()> {
    /// use markring::{Events, Node, Shape};
    ///
    /// let node = Node::with_shape(Shape::wide(2, 4, 16, 1, 0), 0, 0)?;
    /// node.track_freed(true)?;
    /// let lost = node.alloc(0, 0)?;
    /// node.set_word(0, 7)?;
    /// node.drop_register(0)?;
    /// node.reclaim()?;
    /// assert!(node.freed()?.is_empty());
    ///
    /// let image = node.image()?; // and store it
    /// node.kept(image.mark)?;
    /// let freed = node.freed()?;
    /// assert_eq!((freed[0].reference, freed[0].word), (lost, 7));
    /// # Ok(())
    /// # }
    /// ```
    ///
    /// # Errors
    ///
    /// `Memory`, if there isn't enough for what is returned. A later call returns it then.
    fn freed(&self) -> Result<Vec<Gone>>;

    /// Whether an event has changed the node since it was last saved.
    ///
    /// # Errors
    ///
    /// None today.
    fn unsaved(&self) -> Result<bool>;

    /// The number of bytes that the node's image has now.
    ///
    /// # Errors
    ///
    /// `ImageTooLarge`, `Memory`.
    fn image_size(&self) -> Result<usize>;
}

// As many freed objects are fetched at once.
pub(crate) const ROOM: usize = 64;

// Implements `Events` by the functions of the C library.
macro_rules! events {
    ($type:ty {
        $alloc:ident $copy:ident $drop:ident $load:ident $store:ident $clear:ident $word:ident
        $set_word:ident $bytes_length:ident $bytes:ident $set_bytes:ident $patch:ident $give:ident
        $post:ident $accept:ident $letter:ident $letter_bytes:ident $accept_into:ident $put:ident
        $get:ident $fetch:ident $resolve:ident $reclaim:ident $reclaim_young:ident $begin:ident
        $scan:ident $pass:ident $sweep:ident $next:ident $work:ident $act:ident $state:ident $link:ident $register:ident
        $slots:ident $object:ident $place:ident $bytes_at:ident
        $track_freed:ident $freed:ident $unsaved:ident $image_size:ident $image:ident
    }) => {
        impl $type {
            // Asks the library, and returns its answer.
            fn answer(
                &self,
                call: impl FnOnce(*mut ffi::Handle, *mut ffi::RawAnswer) -> c_int,
            ) -> Result<ffi::RawAnswer> {
                let mut answer = ffi::RawAnswer::default();
                checked(call(self.at.get(), &mut answer))?;
                Ok(answer)
            }

            /// Takes the node's image.
            ///
            /// # Errors
            ///
            /// `ImageTooLarge`, `Memory`.
            pub fn image(&self) -> Result<Image> {
                let (mut needed, mut mark) = (self.image_size()?, 0);
                let mut bytes = filled(needed)?;
                // SAFETY: the buffer has the length that is passed.
                checked(unsafe {
                    ffi::$image(
                        self.at.get(),
                        bytes.as_mut_ptr(),
                        bytes.len(),
                        &mut needed,
                        &mut mark,
                    )
                })?;
                bytes.truncate(needed);
                Ok(Image { bytes, mark })
            }
        }

        // SAFETY of all calls: the handle is this value's own, one thread at a time uses it since
        // the type isn't `Sync`, and what the call writes to is a variable of the caller.
        impl Events for $type {
            fn alloc(&self, register: u16, places: u8) -> Result<Ref> {
                self.answer(|at, answer| unsafe { ffi::$alloc(at, register, places, answer) })
                    .map(|it| it.object())
            }

            fn copy(&self, register: u16, source: u16) -> Result<()> {
                self.answer(|at, answer| unsafe { ffi::$copy(at, register, source, answer) })
                    .map(drop)
            }

            fn drop_register(&self, register: u16) -> Result<()> {
                self.answer(|at, answer| unsafe { ffi::$drop(at, register, answer) })
                    .map(drop)
            }

            fn load(&self, register: u16, object: u16, place: u8) -> Result<Option<Ref>> {
                self.answer(|at, answer| unsafe { ffi::$load(at, register, object, place, answer) })
                    .map(|it| Ref::from_raw(it.reference))
            }

            fn store(&self, object: u16, place: u8, register: u16) -> Result<()> {
                self.answer(|at, answer| unsafe {
                    ffi::$store(at, object, place, register, answer)
                })
                .map(drop)
            }

            fn clear(&self, object: u16, place: u8) -> Result<()> {
                self.answer(|at, answer| unsafe { ffi::$clear(at, object, place, answer) })
                    .map(drop)
            }

            fn word(&self, object: u16) -> Result<u64> {
                self.answer(|at, answer| unsafe { ffi::$word(at, object, answer) })
                    .map(|it| it.number)
            }

            fn set_word(&self, object: u16, word: u64) -> Result<()> {
                self.answer(|at, answer| unsafe { ffi::$set_word(at, object, word, answer) })
                    .map(drop)
            }

            fn bytes_len(&self, object: u16) -> Result<u32> {
                let mut length = 0;
                checked(unsafe { ffi::$bytes_length(self.at.get(), object, &mut length) })?;
                Ok(length)
            }

            fn read_bytes(&self, object: u16, offset: u32, buffer: &mut [u8]) -> Result<()> {
                // (A count that doesn't fit is more than any object has.)
                let count = u32::try_from(buffer.len()).unwrap_or(u32::MAX);
                let (to, length, mut needed) = (buffer.as_mut_ptr(), buffer.len(), 0);
                checked(unsafe {
                    ffi::$bytes(
                        self.at.get(),
                        object,
                        offset,
                        count,
                        to,
                        length,
                        &mut needed,
                    )
                })
            }

            fn set_bytes(&self, object: u16, bytes: &[u8]) -> Result<()> {
                self.answer(|at, answer| unsafe {
                    ffi::$set_bytes(at, object, bytes.as_ptr(), bytes.len(), answer)
                })
                .map(drop)
            }

            fn patch(&self, object: u16, offset: u32, bytes: &[u8]) -> Result<()> {
                self.answer(|at, answer| unsafe {
                    ffi::$patch(at, object, offset, bytes.as_ptr(), bytes.len(), answer)
                })
                .map(drop)
            }

            fn give(&self, to: u8, label: u32, register: u16) -> Result<u64> {
                self.answer(|at, answer| unsafe { ffi::$give(at, to, label, register, answer) })
                    .map(|it| it.number)
            }

            fn post(&self, to: u8, label: u32, first: u16, count: u8, bytes: &[u8]) -> Result<u64> {
                let (from, length) = (bytes.as_ptr(), bytes.len());
                self.answer(|at, answer| unsafe {
                    ffi::$post(at, to, label, first, count, from, length, answer)
                })
                .map(|it| it.number)
            }

            fn accept(&self, register: u16) -> Result<Letter> {
                self.answer(|at, answer| unsafe { ffi::$accept(at, register, answer) })
                    .map(|it| it.letter())
            }

            fn accept_into(&self, register: u16, bytes: &mut Vec<u8>) -> Result<Letter> {
                refill(bytes, self.letter()?.bytes)?;
                let (to, length, mut needed) = (bytes.as_mut_ptr(), bytes.len(), 0);
                self.answer(|at, answer| unsafe {
                    ffi::$accept_into(at, register, to, length, &mut needed, answer)
                })
                .map(|it| it.letter())
            }

            fn letter(&self) -> Result<Letter> {
                self.answer(|at, answer| unsafe { ffi::$letter(at, answer) })
                    .map(|it| it.letter())
            }

            fn letter_bytes(&self) -> Result<Vec<u8>> {
                let mut bytes = filled(self.letter()?.bytes)?;
                let (to, length, mut needed) = (bytes.as_mut_ptr(), bytes.len(), 0);
                checked(unsafe { ffi::$letter_bytes(self.at.get(), to, length, &mut needed) })?;
                Ok(bytes)
            }

            fn put(&self, object: u16, place: u8, register: u16) -> Result<u64> {
                self.answer(|at, answer| unsafe { ffi::$put(at, object, place, register, answer) })
                    .map(|it| it.number)
            }

            fn get(&self, object: u16, place: u8, label: u32) -> Result<u64> {
                self.answer(|at, answer| unsafe { ffi::$get(at, object, place, label, answer) })
                    .map(|it| it.number)
            }

            fn fetch(&self, object: u16, label: u32, offset: u32, count: u32) -> Result<u64> {
                self.answer(|at, answer| unsafe {
                    ffi::$fetch(at, object, label, offset, count, answer)
                })
                .map(|it| it.number)
            }

            fn resolve(&self, register: u16, reference: Ref) -> Result<()> {
                let reference = reference.to_raw();
                self.answer(|at, answer| unsafe { ffi::$resolve(at, register, &reference, answer) })
                    .map(drop)
            }

            fn reclaim(&self) -> Result<u32> {
                self.answer(|at, answer| unsafe { ffi::$reclaim(at, answer) })
                    .map(|it| it.count)
            }

            fn reclaim_young(&self) -> Result<u32> {
                self.answer(|at, answer| unsafe { ffi::$reclaim_young(at, answer) })
                    .map(|it| it.count)
            }

            fn begin(&self) -> Result<u64> {
                self.answer(|at, answer| unsafe { ffi::$begin(at, answer) })
                    .map(|it| it.number)
            }

            fn scan(&self) -> Result<Ref> {
                self.answer(|at, answer| unsafe { ffi::$scan(at, answer) })
                    .map(|it| it.object())
            }

            fn pass(&self) -> Result<Passed> {
                self.answer(|at, answer| unsafe { ffi::$pass(at, answer) })
                    .map(|it| it.passed())
            }

            fn sweep(&self, count: u32) -> Result<Freed> {
                self.answer(|at, answer| unsafe { ffi::$sweep(at, count, answer) })
                    .map(|it| it.freed())
            }

            fn next(&self, from: u8) -> Result<()> {
                self.answer(|at, answer| unsafe { ffi::$next(at, from, answer) })
                    .map(drop)
            }

            fn work(&self, scans: u32, slots: u32) -> Result<Work, Stopped> {
                let mut work = ffi::RawWork::default();
                let status = unsafe { ffi::$work(self.at.get(), scans, slots, &mut work) };
                let done = Work::from_raw(&work);
                checked(status)
                    .map(|()| done)
                    .map_err(|refusal| Stopped { refusal, done })
            }

            fn act(&self, event: Event) -> Result<Answer> {
                let event = event.to_raw();
                self.answer(|at, answer| unsafe { ffi::$act(at, &event, answer) })
                    .map(|it| Answer::from_raw(&it))
            }

            fn state(&self) -> Result<State> {
                let mut state = ffi::RawState::default();
                checked(unsafe { ffi::$state(self.at.get(), &mut state) })?;
                Ok(State::from_raw(&state))
            }

            fn link(&self, peer: u8) -> Result<Link> {
                let mut link = ffi::RawLink::default();
                checked(unsafe { ffi::$link(self.at.get(), peer, &mut link) })?;
                Ok(Link::from_raw(&link))
            }

            fn register(&self, register: u16) -> Result<Option<Ref>> {
                let mut reference = ffi::RawRef::default();
                let status = unsafe { ffi::$register(self.at.get(), register, &mut reference) };
                Ok(found(status)?.then(|| Ref::from_raw(reference)).flatten())
            }

            fn slots(&self) -> Result<u32> {
                let mut slots = 0;
                checked(unsafe { ffi::$slots(self.at.get(), &mut slots) })?;
                Ok(slots)
            }

            fn object(&self, slot: u32) -> Result<Option<Object>> {
                let mut object = ffi::RawObject::default();
                let found = found(unsafe { ffi::$object(self.at.get(), slot, &mut object) })?;
                Ok(found.then(|| Object::from_raw(&object)))
            }

            fn place(&self, slot: u32, place: u8) -> Result<Option<Ref>> {
                let mut reference = ffi::RawRef::default();
                let status = unsafe { ffi::$place(self.at.get(), slot, place, &mut reference) };
                there(status)?;
                Ok(Ref::from_raw(reference))
            }

            fn read_bytes_at(&self, slot: u32, offset: u32, buffer: &mut [u8]) -> Result<()> {
                // (A count that doesn't fit is more than any object has.)
                let count = u32::try_from(buffer.len()).unwrap_or(u32::MAX);
                let (to, length, mut needed) = (buffer.as_mut_ptr(), buffer.len(), 0);
                there(unsafe {
                    ffi::$bytes_at(self.at.get(), slot, offset, count, to, length, &mut needed)
                })
            }

            fn track_freed(&self, on: bool) -> Result<()> {
                checked(unsafe { ffi::$track_freed(self.at.get(), u8::from(on)) })
            }

            fn freed(&self) -> Result<Vec<Gone>> {
                let (mut gone, mut buffer) =
                    (Vec::new(), [ffi::RawFreed::default(); $crate::events::ROOM]);
                loop {
                    gone.try_reserve($crate::events::ROOM)
                        .map_err(|_| Refusal::Memory)?;
                    let (to, room, mut count) = (buffer.as_mut_ptr(), buffer.len(), 0);
                    checked(unsafe { ffi::$freed(self.at.get(), to, room, &mut count) })?;
                    gone.extend(buffer[..count].iter().map(Gone::from_raw));
                    if count < room {
                        return Ok(gone);
                    }
                }
            }

            fn unsaved(&self) -> Result<bool> {
                let mut flag = 0;
                checked(unsafe { ffi::$unsaved(self.at.get(), &mut flag) })?;
                Ok(flag != 0)
            }

            fn image_size(&self) -> Result<usize> {
                let mut size = 0;
                checked(unsafe { ffi::$image_size(self.at.get(), &mut size) })?;
                Ok(size)
            }
        }
    };
}

pub(crate) use events;
