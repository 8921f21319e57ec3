//! Nodes: the caller moves frames between them and stores their images.

use crate::events::events;
use crate::ffi;
use crate::refusal::{checked, found, there};
use crate::{Answer, Batch, Event, Events, Frame, Freed, Gone, Image, Letter, Link, Object};
use crate::{Passed, Ref, Refusal, Result, Shape, State, Stopped, Taken, Work};
use alloc::vec::Vec;
use core::cell::UnsafeCell;
use core::ffi::c_int;
use core::fmt;

// The greatest sizes of a frame, and of a window of frames with their lengths and numbers, unless
// there are letters with references or bytes.
const FRAME: usize = 48;
const WINDOW: usize = 1_920;
// Before each frame of a window: its length, and its number.
const LENGTH: usize = 4;
const NUMBER: usize = 8;

// This many zeros, unless memory is refused.
pub(crate) fn filled(length: usize) -> Result<Vec<u8>> {
    let mut bytes = Vec::new();
    refill(&mut bytes, length)?;
    Ok(bytes)
}

// The same in place of what the vector had.
pub(crate) fn refill(bytes: &mut Vec<u8>, length: usize) -> Result<()> {
    bytes.clear();
    bytes
        .try_reserve_exact(length)
        .map_err(|_| Refusal::Memory)?;
    bytes.resize(length, 0);
    Ok(())
}

/// One node of a space, for a caller that moves its frames and stores its images.
///
/// A frame may be lost, repeated and delayed: send the released ones again and again until they are
/// acknowledged. What a node sent is released once an image that holds it is kept.
///
/// A value of this type may move to another thread, but two threads can't use it at the same time:
///
/// ```compile_fail
/// fn is_shared<T: Sync>() {}
/// is_shared::<markring::Node>();
/// ```
///
/// A letter from one node to another:
///
/// ```
/// use markring::{Events, Node, Taken};
///
/// # fn main() -> markring::Result<()> {
/// let zero = Node::new(2, 4, 16, 0)?;
/// let one = Node::new(2, 4, 16, 1)?;
///
/// // Node 0 makes an object, and sends its reference to node 1.
/// let object = zero.alloc(0, 1)?;
/// zero.give(1, 7, 0)?;
///
/// // What isn't saved doesn't leave a node.
/// assert!(zero.frames(1, 0)?.is_empty());
/// let image = zero.image()?;
/// // (Here the bytes of the image are stored.)
/// zero.kept(image.mark)?;
///
/// for frame in zero.frames(1, 0)? {
///     assert_eq!(one.take(&frame.bytes)?, Taken::Received);
/// }
/// let letter = one.accept(0)?;
/// assert_eq!((letter.from, letter.label), (0, 7));
/// assert_eq!(letter.reference, Some(object));
/// # Ok(())
/// # }
/// ```
// (a host has the handle of its node, and shows it as one)
#[repr(transparent)]
pub struct Node {
    at: UnsafeCell<ffi::Handle>,
}

// SAFETY: the library allows a handle to move between threads.
unsafe impl Send for Node {}

events! {
    Node {
        markring_node_alloc markring_node_copy markring_node_drop markring_node_load
        markring_node_store markring_node_clear markring_node_word markring_node_set_word
        markring_node_bytes_length markring_node_bytes markring_node_set_bytes markring_node_patch
        markring_node_give markring_node_post markring_node_accept markring_node_letter
        markring_node_letter_bytes markring_node_accept_into markring_node_put markring_node_get
        markring_node_fetch markring_node_resolve
        markring_node_reclaim markring_node_reclaim_young markring_node_begin markring_node_scan
        markring_node_pass markring_node_sweep
        markring_node_next markring_node_work markring_node_act markring_node_state markring_node_link
        markring_node_register markring_node_slots markring_node_object markring_node_place
        markring_node_bytes_at markring_node_track_freed markring_node_freed markring_node_unsaved
    markring_node_image_size markring_node_image
    }
}

impl Node {
    /// Makes a new node: node `own` of a plain space of `nodes`, each with this many registers and
    /// slots.
    ///
    /// # Errors
    ///
    /// `BadArgument` if `nodes` isn't 2 to 64, or `registers` 1 to 256, or `slots` 1 to 1,048,576;
    /// `NoNode` if `own` isn't below `nodes`; `Memory`.
    pub fn new(nodes: u8, registers: u16, slots: u32, own: u8) -> Result<Self> {
        Node::with_limit(nodes, registers, slots, own, 0)
    }

    /// Makes a new node that refuses Give, Post, Put, Get and Fetch with `Congested` while this many
    /// of its messages to the receiver, or more, aren't acknowledged. 0 is no limit.
    ///
    /// # Errors
    ///
    /// As for [`Node::new`].
    pub fn with_limit(nodes: u8, registers: u16, slots: u32, own: u8, limit: u64) -> Result<Self> {
        Node::made(|at| unsafe { ffi::markring_node_new(at, nodes, registers, slots, own, limit) })
    }

    /// Makes a new node of a space of this shape, plain or wide. `limit` is as for
    /// [`Node::with_limit`].
    ///
    /// ```
    /// use markring::{Events, Node, Shape};
    ///
    /// # fn main() -> markring::Result<()> {
    /// let node = Node::with_shape(Shape::wide(2, 1_000, 5_000_000, 200, 1_000_000), 0, 0)?;
    /// node.alloc(999, 200)?;
    /// node.store(999, 199, 999)?;
    /// node.set_bytes(999, b"any bytes")?;
    /// node.patch(999, 4, b"text_")?;
    /// assert_eq!(node.bytes(999)?, b"any text_");
    /// # Ok(())
    /// # }
    /// ```
    ///
    /// # Errors
    ///
    /// `BadArgument` if the shape isn't within the limits of its kind; `NoNode` if `own` isn't
    /// below its number of nodes; `Memory`.
    pub fn with_shape(shape: Shape, own: u8, limit: u64) -> Result<Self> {
        Node::made(|at| unsafe { ffi::markring_node_make(at, &shape.to_raw(), own, limit) })
    }

    /// Makes the node of an image. All that it sent and received counts as saved. `limit` is as for
    /// [`Node::with_limit`].
    ///
    /// # Errors
    ///
    /// `BadImage`, `Memory`.
    pub fn from_image(bytes: &[u8], limit: u64) -> Result<Self> {
        Node::made(|at| unsafe {
            ffi::markring_node_from_image(at, bytes.as_ptr(), bytes.len(), limit)
        })
    }

    /// Makes the node of an image and of the batches that were stored behind it, one after another
    /// and in their order. All that it sent and received counts as saved, and it has a log: its
    /// next batch may be stored behind these. If the image is that of a node without a log, there
    /// must be no batches, and the next save is an image. `limit` is as for [`Node::with_limit`].
    ///
    /// # Errors
    ///
    /// `BadImage`, `Memory`.
    pub fn from_batches(image: &[u8], batches: &[u8], limit: u64) -> Result<Self> {
        Node::made(|at| unsafe {
            ffi::markring_node_from_batches(
                at,
                image.as_ptr(),
                image.len(),
                batches.as_ptr(),
                batches.len(),
                limit,
            )
        })
    }

    fn made(make: impl FnOnce(*mut ffi::Handle) -> c_int) -> Result<Self> {
        let at = UnsafeCell::new(ffi::Handle::empty());
        checked(make(at.get()))?;
        Ok(Node { at })
    }

    /// Gives the node a frame from another node: a message, or an acknowledgement. After
    /// [`Taken::Early`], call [`Events::next`] once the messages before it have been received.
    ///
    /// # Errors
    ///
    /// `BadFrame`, `WrongNode`, `OutOfOrder`, `LinkSpent`, `AckBeyond`, `Memory`.
    pub fn take(&self, bytes: &[u8]) -> Result<Taken> {
        self.answer(|at, answer| unsafe {
            ffi::markring_node_take(at, bytes.as_ptr(), bytes.len(), answer)
        })
        .map(|it| it.taken())
    }

    /// The frame of the released message at this place of the window to the node `to`, if there is
    /// one. Place 0 has the message after the last one that `to` has acknowledged.
    ///
    /// # Errors
    ///
    /// `BadArgument` if the place isn't below 32, `NoNode`, `Memory`.
    pub fn frame_at(&self, to: u8, place: u8) -> Result<Option<Vec<u8>>> {
        let (mut bytes, mut needed) = (filled(FRAME)?, 0);
        let mut status = self.write_frame(to, place, &mut bytes, &mut needed);
        if needed > bytes.len() {
            // A letter with references or bytes.
            refill(&mut bytes, needed)?;
            status = self.write_frame(to, place, &mut bytes, &mut needed);
        }
        let found = found(status)?;
        bytes.truncate(needed);
        Ok(found.then_some(bytes))
    }

    // Writes a frame to the buffer if it fits, and its length. Returns the status.
    fn write_frame(&self, to: u8, place: u8, buffer: &mut [u8], needed: &mut usize) -> c_int {
        let (start, length) = (buffer.as_mut_ptr(), buffer.len());
        // SAFETY: the buffer has the length that is passed.
        unsafe { ffi::markring_node_frame_at(self.at.get(), to, place, start, length, needed) }
    }

    /// The frames in the window to the node `to` whose numbers are above `after`, in the order of
    /// their numbers.
    ///
    /// # Errors
    ///
    /// `NoNode`, `Memory`.
    pub fn frames(&self, to: u8, after: u64) -> Result<Vec<Frame>> {
        let mut buffer = [0; WINDOW];
        let (mut long_buffer, mut count, mut needed) = (Vec::new(), 0, 0);
        let mut status = self.write_frames(to, after, &mut buffer, &mut count, &mut needed);
        let mut rest = &buffer[..];
        if needed > WINDOW {
            // Letters with references or bytes.
            refill(&mut long_buffer, needed)?;
            status = self.write_frames(to, after, &mut long_buffer, &mut count, &mut needed);
            rest = &long_buffer;
        }
        if !found(status)? {
            return Ok(Vec::new());
        }
        let mut frames = Vec::new();
        frames
            .try_reserve_exact(count)
            .map_err(|_| Refusal::Memory)?;
        for _ in 0..count {
            let (length, number) = (number_of(rest, LENGTH), number_of(&rest[LENGTH..], NUMBER));
            let frame = &rest[LENGTH + NUMBER..][..length as usize];
            let mut bytes = filled(frame.len())?;
            bytes.copy_from_slice(frame);
            frames.push(Frame { number, bytes });
            rest = &rest[LENGTH + NUMBER + frame.len()..];
        }
        Ok(frames)
    }

    // Writes frames of the window to the buffer, how many, and how many bytes all have. Returns the
    // status.
    fn write_frames(
        &self,
        to: u8,
        after: u64,
        buffer: &mut [u8],
        count: &mut usize,
        needed: &mut usize,
    ) -> c_int {
        let (start, length) = (buffer.as_mut_ptr(), buffer.len());
        // SAFETY: the buffer has the length that is passed.
        unsafe { ffi::markring_node_frames(self.at.get(), to, after, start, length, count, needed) }
    }

    /// The acknowledgement to the node `from` of all its messages up to the last one that a saved
    /// state has received, as a frame.
    ///
    /// # Errors
    ///
    /// `NoNode`, `Memory`.
    pub fn ack_for(&self, from: u8) -> Result<Vec<u8>> {
        let (mut bytes, mut needed) = (filled(FRAME)?, 0);
        // SAFETY: the buffer has the length that is passed.
        checked(unsafe {
            ffi::markring_node_ack_for(
                self.at.get(),
                from,
                bytes.as_mut_ptr(),
                bytes.len(),
                &mut needed,
            )
        })?;
        bytes.truncate(needed);
        Ok(bytes)
    }

    /// Begins a log of the node's events, or ends it. It has the events since the last image or
    /// batch, so it is of use from the next image on. If there is one already, to begin it changes
    /// nothing. Only [`Node::from_batches`] reads an image of a node with a log.
    ///
    /// The log is lost if an allocation for it fails, if it would become longer than 1,048,576
    /// bytes, and by [`Node::release`]; no event fails because of that. A new one begins at the
    /// next image.
    pub fn log(&self, on: bool) -> Result<()> {
        checked(unsafe { ffi::markring_node_log(self.at.get(), u8::from(on)) })
    }

    /// The number of bytes of the next batch.
    ///
    /// # Errors
    ///
    /// `NoLog`.
    pub fn batch_size(&self) -> Result<usize> {
        let mut size = 0;
        checked(unsafe { ffi::markring_node_batch_size(self.at.get(), &mut size) })?;
        Ok(size)
    }

    /// The events since the last image or batch, as a batch. Store it behind the image and the
    /// batches before it, and call [`Node::kept`] with its mark.
    ///
    /// ```
    /// use markring::{Events, Node};
    ///
    /// # fn main() -> markring::Result<()> {
    /// let node = Node::new(2, 4, 16, 0)?;
    /// node.log(true)?;
    /// let image = node.image()?;
    /// // (Here the bytes of the image are stored.)
    /// node.kept(image.mark)?;
    ///
    /// node.alloc(0, 1)?;
    /// node.set_word(0, 7)?;
    /// let batch = node.batch()?;
    /// // (Here the bytes of the batch are stored behind the image.)
    /// node.kept(batch.mark)?;
    ///
    /// let again = Node::from_batches(&image.bytes, &batch.bytes, 0)?;
    /// assert_eq!(again.word(0)?, 7);
    /// # Ok(())
    /// # }
    /// ```
    ///
    /// # Errors
    ///
    /// `NoLog` if there is no log, if it is lost, or if what the last image or batch holds doesn't
    /// count as saved: take an image. `Memory`.
    pub fn batch(&self) -> Result<Batch> {
        let mut bytes = filled(self.batch_size()?)?;
        let (mut needed, mut mark) = (0, 0);
        // SAFETY: the buffer has the length that is passed.
        checked(unsafe {
            ffi::markring_node_batch(
                self.at.get(),
                bytes.as_mut_ptr(),
                bytes.len(),
                &mut needed,
                &mut mark,
            )
        })?;
        bytes.truncate(needed);
        Ok(Batch { bytes, mark })
    }

    /// Says that the image or batch with this mark is stored. What it holds counts as saved: the
    /// messages in it are released, and what it received is acknowledged. Events after it stay
    /// unsaved until a later image or batch is kept.
    ///
    /// # Errors
    ///
    /// `WrongMark` if it isn't the mark of the last image or batch.
    pub fn kept(&self, mark: u64) -> Result<()> {
        checked(unsafe { ffi::markring_node_kept(self.at.get(), mark) })
    }

    /// Counts everything as saved, though no image is stored. For a space that ends with its
    /// process, and so for a heap that needs no disk. After it, open the node only from an image
    /// that was taken later: an older one would bring back objects that other nodes have freed,
    /// and lose others.
    pub fn release(&self) -> Result<()> {
        checked(unsafe { ffi::markring_node_release(self.at.get()) })
    }

    /// The number of the message from the node `from` that was early and is the next one now, if
    /// there is one. [`Events::next`] receives it.
    ///
    /// # Errors
    ///
    /// `NoNode` if `from` isn't another node of the space.
    pub fn waiting(&self, from: u8) -> Result<Option<u64>> {
        let mut number = 0;
        let found = found(unsafe { ffi::markring_node_waiting(self.at.get(), from, &mut number) })?;
        Ok(found.then_some(number))
    }
}

// A big-endian number of this many bytes.
fn number_of(bytes: &[u8], length: usize) -> u64 {
    bytes[..length]
        .iter()
        .fold(0, |number, byte| number << 8 | u64::from(*byte))
}

impl Drop for Node {
    fn drop(&mut self) {
        // SAFETY: the handle is full until here, and not used after.
        unsafe { ffi::markring_node_free(self.at.get()) };
    }
}

impl fmt::Debug for Node {
    fn fmt(&self, f: &mut fmt::Formatter<'_>) -> fmt::Result {
        f.debug_struct("Node")
            .field("state", &self.state())
            .finish()
    }
}
