//! Spaces, cells and watches: nodes in threads of one process.

use crate::events::events;
use crate::ffi;
use crate::node::{filled, refill};
use crate::refusal::{checked, found, there};
use crate::{
    Answer, Event, Events, Freed, Gone, Image, Letter, Link, Object, Passed, Ref, Refusal, Result,
    Shape, State, Stopped, Taken, Work,
};
use alloc::vec::Vec;
use core::cell::UnsafeCell;
use core::ffi::c_int;
use core::fmt;

/// A space whose nodes are in threads of one process. It makes [`Cell`]s and [`Watch`]es, which
/// then move to threads.
///
/// ```
/// use markring::{Events, Space, Taken};
///
/// # fn main() -> markring::Result<()> {
/// let space = Space::new(2, 4, 16, 0)?;
/// space.open()?;
/// let cells = space.cells()?;
///
/// let object = cells[0].alloc(0, 1)?;
/// cells[0].give(1, 7, 0)?;
/// let image = cells[0].image()?;
/// // (Here the bytes of the image are stored.)
/// cells[0].save(image.mark)?;
/// assert!(cells[0].send(1)?);
/// assert_eq!(cells[1].receive(0)?, Some(Taken::Received));
/// assert_eq!(cells[1].accept(0)?.reference, Some(object));
/// # Ok(())
/// # }
/// ```
pub struct Space {
    at: UnsafeCell<ffi::Handle>,
    nodes: u8,
    apart: core::cell::Cell<Option<(u8, u8)>>,
}

// SAFETY: the library allows a handle to move between threads.
unsafe impl Send for Space {}

impl Space {
    /// Makes a plain space that isn't open yet, for this number of watches.
    ///
    /// # Errors
    ///
    /// `BadArgument` if `nodes` isn't 2 to 64, or `registers` 1 to 256, or `slots` 1 to 1,048,576;
    /// `Memory`.
    pub fn new(nodes: u8, registers: u16, slots: u32, watches: u8) -> Result<Self> {
        Space::made(nodes, |at| unsafe {
            ffi::markring_space_new(at, nodes, registers, slots, watches)
        })
    }

    /// Makes a space of this shape, plain or wide, that isn't open yet.
    ///
    /// # Errors
    ///
    /// `BadArgument` if the shape isn't within the limits of its kind; `Memory`.
    pub fn with_shape(shape: Shape, watches: u8) -> Result<Self> {
        Space::made(shape.nodes, |at| unsafe {
            ffi::markring_space_make(at, &shape.to_raw(), watches)
        })
    }

    fn made(nodes: u8, make: impl FnOnce(*mut ffi::Handle) -> c_int) -> Result<Self> {
        let at = UnsafeCell::new(ffi::Handle::empty());
        checked(make(at.get()))?;
        Ok(Space {
            at,
            nodes,
            apart: core::cell::Cell::new(None),
        })
    }

    /// Gives the space the stored image of a node, from which that node will continue. Give the
    /// images of all nodes or of none.
    ///
    /// # Errors
    ///
    /// `InUse` if the space is open, `NoNode`, `Memory`.
    pub fn disk(&self, node: u8, image: &[u8]) -> Result<()> {
        checked(unsafe {
            ffi::markring_space_disk(self.at.get(), node, image.as_ptr(), image.len())
        })
    }

    /// Opens the space. If that is refused, the space isn't open and has its images still.
    ///
    /// # Errors
    ///
    /// `InUse` if the space is open; `WrongDisks` if an image is of another node or of a space of
    /// another shape; `Ages` if two images can't be of one moment; `BadImage`; `Disk`; `Memory`.
    pub fn open(&self) -> Result<()> {
        let (mut sender, mut receiver) = (0, 0);
        let status = unsafe { ffi::markring_space_open(self.at.get(), &mut sender, &mut receiver) };
        let opened = checked(status);
        self.apart
            .set((opened == Err(Refusal::Ages)).then_some((sender, receiver)));
        opened
    }

    /// The two nodes that made the last [`open`](Space::open) fail with `Ages`, if it did. The
    /// second one has received messages that the first hasn't sent, or lacks some that the first
    /// has dropped.
    pub fn apart(&self) -> Option<(u8, u8)> {
        self.apart.get()
    }

    /// The cell of a node, or nothing if the space isn't open or the cell was moved out before.
    ///
    /// # Errors
    ///
    /// `NoNode`.
    pub fn cell(&self, node: u8) -> Result<Option<Cell>> {
        let at = UnsafeCell::new(ffi::Handle::empty());
        let found = found(unsafe { ffi::markring_space_cell(self.at.get(), node, at.get()) })?;
        Ok(found.then(|| Cell { at }))
    }

    /// The cells of all nodes that weren't moved out before, in the order of the nodes.
    ///
    /// # Errors
    ///
    /// None today.
    pub fn cells(&self) -> Result<Vec<Cell>> {
        let cells = (0..self.nodes).map(|node| self.cell(node));
        cells.filter_map(Result::transpose).collect()
    }

    /// A watch, or nothing if the space isn't open or all its watches were moved out.
    ///
    /// # Errors
    ///
    /// None today.
    pub fn watch(&self) -> Result<Option<Watch>> {
        let at = UnsafeCell::new(ffi::Handle::empty());
        let found = found(unsafe { ffi::markring_space_watch(self.at.get(), at.get()) })?;
        Ok(found.then(|| Watch { at }))
    }
}

impl Drop for Space {
    fn drop(&mut self) {
        // SAFETY: the handle is full until here, and not used after.
        unsafe { ffi::markring_space_free(self.at.get()) };
    }
}

impl fmt::Debug for Space {
    fn fmt(&self, f: &mut fmt::Formatter<'_>) -> fmt::Result {
        f.debug_struct("Space")
            .field("nodes", &self.nodes)
            .finish_non_exhaustive()
    }
}

/// A node with its place on the wire between the nodes of a [`Space`].
///
/// A thread makes these calls of its cell over and over: [`receive`](Cell::receive) from each other
/// node; events; [`image`](Cell::image) and [`save`](Cell::save); [`send`](Cell::send) to each
/// other node; and at node 0 [`raise`](Cell::raise). No call waits for another thread. A thread
/// that found nothing to do yields its processor.
///
/// While a cell is closed, these calls and all events are refused with `Closed`;
/// [`reopen`](Cell::reopen) opens it.
pub struct Cell {
    at: UnsafeCell<ffi::Handle>,
}

// SAFETY: the library allows a handle to move between threads.
unsafe impl Send for Cell {}

events! {
    Cell {
        markring_cell_alloc markring_cell_copy markring_cell_drop markring_cell_load
        markring_cell_store markring_cell_clear markring_cell_word markring_cell_set_word
        markring_cell_bytes_length markring_cell_bytes markring_cell_set_bytes markring_cell_patch
        markring_cell_give markring_cell_post markring_cell_accept markring_cell_letter
        markring_cell_letter_bytes markring_cell_accept_into markring_cell_put markring_cell_get
        markring_cell_fetch markring_cell_resolve
        markring_cell_reclaim markring_cell_reclaim_young markring_cell_begin markring_cell_scan
        markring_cell_pass markring_cell_sweep
        markring_cell_next markring_cell_work markring_cell_act markring_cell_state markring_cell_link
        markring_cell_register markring_cell_slots markring_cell_object markring_cell_place
        markring_cell_bytes_at markring_cell_track_freed markring_cell_freed markring_cell_unsaved
    markring_cell_image_size markring_cell_image
    }
}

impl Cell {
    /// Receives from the node `from`: the message that was early and is the next one now, or else
    /// the frame in the mailbox from there. Returns nothing if there is neither.
    ///
    /// # Errors
    ///
    /// `Closed`, `NoNode`. With `WrongNode`, `OutOfOrder`, `LinkSpent` and `Memory`
    /// a frame in the mailbox is lost; its sender offers it again.
    pub fn receive(&self, from: u8) -> Result<Option<Taken>> {
        let mut answer = ffi::RawAnswer::default();
        let found = found(unsafe { ffi::markring_cell_receive(self.at.get(), from, &mut answer) })?;
        Ok(found.then(|| answer.taken()))
    }

    /// Sends the next frame to the node `to`, if the mailbox there is empty, and returns whether it
    /// was.
    ///
    /// # Errors
    ///
    /// `Closed`, `NoNode`, `Memory`.
    pub fn send(&self, to: u8) -> Result<bool> {
        let mut sent = 0;
        checked(unsafe { ffi::markring_cell_send(self.at.get(), to, &mut sent) })?;
        Ok(sent != 0)
    }

    /// Saves the cell, whose image with this mark is stored. No event may happen between the image
    /// and the save.
    ///
    /// # Errors
    ///
    /// `WrongMark` if it isn't the mark of the last image, or if the cell was given an event, a
    /// frame or a reopening since, or was saved; `Closed`; `ImageTooLarge`; `Memory`; `Disk`, after
    /// which the cell is closed.
    pub fn save(&self, mark: u64) -> Result<()> {
        checked(unsafe { ffi::markring_cell_save(self.at.get(), mark) })
    }

    /// Goes back to the cell as it was last saved, and opens it. What wasn't saved is lost.
    ///
    /// # Errors
    ///
    /// `Disk`, `Memory`. The cell is closed then: call again.
    pub fn reopen(&self) -> Result<()> {
        checked(unsafe { ffi::markring_cell_reopen(self.at.get()) })
    }

    /// Shows to the watches the last cycle whose marking the saved node 0 knows to have ended, and
    /// returns its number.
    ///
    /// # Errors
    ///
    /// `Closed`, `NotDirector`.
    pub fn raise(&self) -> Result<u64> {
        let mut cycle = 0;
        checked(unsafe { ffi::markring_cell_raise(self.at.get(), &mut cycle) })?;
        Ok(cycle)
    }
}

impl Drop for Cell {
    fn drop(&mut self) {
        // SAFETY: the handle is full until here, and not used after.
        unsafe { ffi::markring_cell_free(self.at.get()) };
    }
}

impl fmt::Debug for Cell {
    fn fmt(&self, f: &mut fmt::Formatter<'_>) -> fmt::Result {
        f.debug_struct("Cell")
            .field("state", &self.state())
            .finish()
    }
}

/// Collects what is garbage in a space whose programs are all stopped: `cells` are those of all
/// nodes, in order. It ends the cycle that is under way and the next one, and saves each cell. What
/// was garbage before, saved or not, is gone then, rings of objects across nodes included.
///
/// `store` stores the image of the node of this number safely, before it counts as saved.
///
/// # Errors
///
/// `BadArgument` if these aren't the cells of all nodes; otherwise the first refusal of a call, or
/// the error of `store`. What was done before remains done, and the call may be repeated.
pub fn collect<E: From<Refusal>>(
    cells: &[Cell],
    mut store: impl FnMut(u8, &[u8]) -> core::result::Result<(), E>,
) -> core::result::Result<(), E> {
    let first = cells.first().ok_or(Refusal::BadArgument)?;
    let (cycle, mut done) = (first.state()?.cycle + 1, 0);
    // SAFETY: nobody else uses these handles while a call lasts, since a cell isn't `Sync`; and it
    // leaves in each the cell that was there.
    let mut handles = Vec::new();
    handles
        .try_reserve_exact(cells.len())
        .map_err(|_| Refusal::Memory)?;
    handles.extend(cells.iter().map(|it| unsafe { it.at.get().read() }));
    while done == 0 {
        checked(unsafe {
            ffi::markring_space_collect(handles.as_mut_ptr(), handles.len(), cycle, &mut done)
        })?;
        for (node, cell) in (0..).zip(cells) {
            if cell.unsaved()? {
                let image = cell.image()?;
                store(node, &image.bytes)?;
                cell.save(image.mark)?;
            }
        }
    }
    Ok(())
}

/// A read-only view of the last cycle whose marking has ended.
pub struct Watch {
    at: UnsafeCell<ffi::Handle>,
}

// SAFETY: the library allows a handle to move between threads.
unsafe impl Send for Watch {}

impl Watch {
    /// The last cycle that a [`Cell::raise`] of node 0 has shown; 0 if there was none.
    ///
    /// # Errors
    ///
    /// None today.
    pub fn look(&self) -> Result<u64> {
        let mut cycle = 0;
        checked(unsafe { ffi::markring_watch_look(self.at.get(), &mut cycle) })?;
        Ok(cycle)
    }
}

impl Drop for Watch {
    fn drop(&mut self) {
        // SAFETY: the handle is full until here, and not used after.
        unsafe { ffi::markring_watch_free(self.at.get()) };
    }
}

impl fmt::Debug for Watch {
    fn fmt(&self, f: &mut fmt::Formatter<'_>) -> fmt::Result {
        f.debug_struct("Watch")
            .field("cycle", &self.look())
            .finish()
    }
}
