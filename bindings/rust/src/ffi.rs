//! The functions of the C library, as `include/markring.h` declares them.

use core::ffi::{c_int, c_void};
use core::ptr;

/// A handle: one pointer that the library owns, null if the handle is empty.
#[repr(C)]
pub(crate) struct Handle {
    at: *mut c_void,
}

impl Handle {
    pub(crate) const fn empty() -> Self {
        Handle {
            at: ptr::null_mut(),
        }
    }
}

#[repr(C)]
#[derive(Clone, Copy, Default)]
pub(crate) struct RawRef {
    pub(crate) node: u8,
    pub(crate) slot: u32,
    pub(crate) generation: u64,
}

#[repr(C)]
#[derive(Clone, Copy, Default)]
pub(crate) struct RawAnswer {
    pub(crate) kind: u8,
    pub(crate) node: u8,
    pub(crate) colour: u8,
    pub(crate) done: u8,
    pub(crate) label: u32,
    pub(crate) count: u32,
    pub(crate) number: u64,
    pub(crate) sum: i64,
    pub(crate) reference: RawRef,
}

#[repr(C)]
#[derive(Clone, Copy, Default)]
pub(crate) struct RawEvent {
    pub(crate) kind: u8,
    pub(crate) node: u8,
    pub(crate) place: u8,
    pub(crate) reg: u16,
    pub(crate) source: u16,
    pub(crate) object: u16,
    pub(crate) label: u32,
    pub(crate) count: u32,
    pub(crate) word: u64,
}

#[repr(C)]
#[derive(Clone, Copy, Default)]
pub(crate) struct RawShape {
    pub(crate) slots: u32,
    pub(crate) bytes: u32,
    pub(crate) registers: u16,
    pub(crate) nodes: u8,
    pub(crate) places: u8,
    pub(crate) wide: u8,
}

#[repr(C)]
#[derive(Clone, Copy, Default)]
pub(crate) struct RawState {
    pub(crate) nodes: u8,
    pub(crate) own: u8,
    pub(crate) colour: u8,
    pub(crate) has_token: u8,
    pub(crate) registers: u16,
    pub(crate) places: u8,
    pub(crate) wide: u8,
    pub(crate) slots: u32,
    pub(crate) live: u32,
    pub(crate) cycle: u64,
    pub(crate) ended: u64,
    pub(crate) swept: u64,
    pub(crate) earlier: i64,
    pub(crate) recent: i64,
    pub(crate) grey: u64,
    pub(crate) letters: u64,
    pub(crate) bytes: u32,
}

#[repr(C)]
#[derive(Clone, Copy, Default)]
pub(crate) struct RawLink {
    pub(crate) appended: u64,
    pub(crate) released: u64,
    pub(crate) acknowledged: u64,
    pub(crate) received: u64,
    pub(crate) received_saved: u64,
}

#[repr(C)]
#[derive(Clone, Copy, Default)]
pub(crate) struct RawObject {
    pub(crate) reference: RawRef,
    pub(crate) word: u64,
    pub(crate) bytes: u32,
    pub(crate) places: u8,
    pub(crate) marked: u8,
    pub(crate) shared: u8,
    pub(crate) age: u8,
}

#[repr(C)]
#[derive(Clone, Copy, Default)]
pub(crate) struct RawFreed {
    pub(crate) reference: RawRef,
    pub(crate) word: u64,
}

#[repr(C)]
#[derive(Clone, Copy, Default)]
pub(crate) struct RawWork {
    pub(crate) received: u64,
    pub(crate) scanned: u64,
    pub(crate) freed: u32,
    pub(crate) passed: u8,
    pub(crate) swept: u8,
    pub(crate) more: u8,
}

type Place = *mut Handle;
type Reply = *mut RawAnswer;

extern "C" {
    pub(crate) fn markring_node_new(
        node: Place,
        nodes: u8,
        registers: u16,
        slots: u32,
        own: u8,
        limit: u64,
    ) -> c_int;
    pub(crate) fn markring_node_make(
        node: Place,
        shape: *const RawShape,
        own: u8,
        limit: u64,
    ) -> c_int;
    pub(crate) fn markring_node_free(node: Place) -> c_int;
    pub(crate) fn markring_node_take(
        node: Place,
        bytes: *const u8,
        length: usize,
        answer: Reply,
    ) -> c_int;
    pub(crate) fn markring_node_frame_at(
        node: Place,
        to: u8,
        place: u8,
        buffer: *mut u8,
        length: usize,
        needed: *mut usize,
    ) -> c_int;
    pub(crate) fn markring_node_ack_for(
        node: Place,
        from: u8,
        buffer: *mut u8,
        length: usize,
        needed: *mut usize,
    ) -> c_int;
    pub(crate) fn markring_node_frames(
        node: Place,
        to: u8,
        after: u64,
        buffer: *mut u8,
        length: usize,
        count: *mut usize,
        needed: *mut usize,
    ) -> c_int;
    pub(crate) fn markring_node_kept(node: Place, mark: u64) -> c_int;
    pub(crate) fn markring_node_release(node: Place) -> c_int;
    pub(crate) fn markring_node_from_image(
        node: Place,
        bytes: *const u8,
        length: usize,
        limit: u64,
    ) -> c_int;
    pub(crate) fn markring_node_log(node: Place, on: u8) -> c_int;
    pub(crate) fn markring_node_batch_size(node: Place, size: *mut usize) -> c_int;
    pub(crate) fn markring_node_batch(
        node: Place,
        buffer: *mut u8,
        length: usize,
        needed: *mut usize,
        mark: *mut u64,
    ) -> c_int;
    pub(crate) fn markring_node_from_batches(
        node: Place,
        image: *const u8,
        image_length: usize,
        batches: *const u8,
        batches_length: usize,
        limit: u64,
    ) -> c_int;
    pub(crate) fn markring_node_waiting(node: Place, from: u8, number: *mut u64) -> c_int;
}

#[cfg(feature = "spaces")]
extern "C" {
    pub(crate) fn markring_space_new(
        space: Place,
        nodes: u8,
        registers: u16,
        slots: u32,
        watches: u8,
    ) -> c_int;
    pub(crate) fn markring_space_make(space: Place, shape: *const RawShape, watches: u8) -> c_int;
    pub(crate) fn markring_space_disk(
        space: Place,
        node: u8,
        image: *const u8,
        length: usize,
    ) -> c_int;
    pub(crate) fn markring_space_open(space: Place, sender: *mut u8, receiver: *mut u8) -> c_int;
    pub(crate) fn markring_space_cell(space: Place, node: u8, cell: Place) -> c_int;
    pub(crate) fn markring_space_watch(space: Place, watch: Place) -> c_int;
    pub(crate) fn markring_space_collect(
        cells: Place,
        nodes: usize,
        cycle: u64,
        done: *mut u8,
    ) -> c_int;
    pub(crate) fn markring_space_free(space: Place) -> c_int;

    pub(crate) fn markring_cell_free(cell: Place) -> c_int;
    pub(crate) fn markring_cell_receive(cell: Place, from: u8, answer: Reply) -> c_int;
    pub(crate) fn markring_cell_send(cell: Place, to: u8, sent: *mut u8) -> c_int;
    pub(crate) fn markring_cell_save(cell: Place, mark: u64) -> c_int;
    pub(crate) fn markring_cell_reopen(cell: Place) -> c_int;
    pub(crate) fn markring_cell_raise(cell: Place, cycle: *mut u64) -> c_int;

    pub(crate) fn markring_watch_look(watch: Place, cycle: *mut u64) -> c_int;
    pub(crate) fn markring_watch_free(watch: Place) -> c_int;
}

// Declares the functions that nodes and cells both have.
macro_rules! both {
    ($($node:ident $cell:ident ($($name:ident: $kind:ty),*);)*) => {
        extern "C" {
            $(
                pub(crate) fn $node(node: Place, $($name: $kind),*) -> c_int;
                #[cfg(feature = "spaces")]
                pub(crate) fn $cell(cell: Place, $($name: $kind),*) -> c_int;
            )*
        }
    };
}

both! {
    markring_node_alloc markring_cell_alloc (reg: u16, places: u8, answer: Reply);
    markring_node_copy markring_cell_copy (reg: u16, source: u16, answer: Reply);
    markring_node_drop markring_cell_drop (reg: u16, answer: Reply);
    markring_node_load markring_cell_load (reg: u16, object: u16, place: u8, answer: Reply);
    markring_node_store markring_cell_store (object: u16, place: u8, reg: u16, answer: Reply);
    markring_node_clear markring_cell_clear (object: u16, place: u8, answer: Reply);
    markring_node_word markring_cell_word (object: u16, answer: Reply);
    markring_node_set_word markring_cell_set_word (object: u16, word: u64, answer: Reply);
    markring_node_set_bytes markring_cell_set_bytes
        (object: u16, bytes: *const u8, length: usize, answer: Reply);
    markring_node_patch markring_cell_patch
        (object: u16, offset: u32, bytes: *const u8, length: usize, answer: Reply);
    markring_node_give markring_cell_give (to: u8, label: u32, reg: u16, answer: Reply);
    markring_node_post markring_cell_post
        (to: u8, label: u32, first: u16, count: u8, bytes: *const u8, length: usize, answer: Reply);
    markring_node_accept markring_cell_accept (reg: u16, answer: Reply);
    markring_node_letter markring_cell_letter (letter: Reply);
    markring_node_letter_bytes markring_cell_letter_bytes
        (buffer: *mut u8, length: usize, needed: *mut usize);
    markring_node_accept_into markring_cell_accept_into
        (reg: u16, buffer: *mut u8, length: usize, needed: *mut usize, answer: Reply);
    markring_node_put markring_cell_put (object: u16, place: u8, reg: u16, answer: Reply);
    markring_node_get markring_cell_get (object: u16, place: u8, label: u32, answer: Reply);
    markring_node_fetch markring_cell_fetch
        (object: u16, label: u32, offset: u32, count: u32, answer: Reply);
    markring_node_resolve markring_cell_resolve (reg: u16, reference: *const RawRef, answer: Reply);
    markring_node_reclaim markring_cell_reclaim (answer: Reply);
    markring_node_reclaim_young markring_cell_reclaim_young (answer: Reply);
    markring_node_begin markring_cell_begin (answer: Reply);
    markring_node_scan markring_cell_scan (answer: Reply);
    markring_node_pass markring_cell_pass (answer: Reply);
    markring_node_sweep markring_cell_sweep (count: u32, answer: Reply);
    markring_node_next markring_cell_next (from: u8, answer: Reply);
    markring_node_work markring_cell_work (scans: u32, slots: u32, work: *mut RawWork);
    markring_node_act markring_cell_act (event: *const RawEvent, answer: Reply);
    markring_node_image_size markring_cell_image_size (size: *mut usize);
    markring_node_image markring_cell_image
        (buffer: *mut u8, length: usize, needed: *mut usize, mark: *mut u64);
    markring_node_state markring_cell_state (state: *mut RawState);
    markring_node_link markring_cell_link (peer: u8, link: *mut RawLink);
    markring_node_register markring_cell_register (reg: u16, reference: *mut RawRef);
    markring_node_bytes markring_cell_bytes
        (object: u16, offset: u32, count: u32, buffer: *mut u8, length: usize, needed: *mut usize);
    markring_node_bytes_length markring_cell_bytes_length (object: u16, length: *mut u32);
    markring_node_slots markring_cell_slots (slots: *mut u32);
    markring_node_object markring_cell_object (slot: u32, object: *mut RawObject);
    markring_node_place markring_cell_place (slot: u32, place: u8, reference: *mut RawRef);
    markring_node_bytes_at markring_cell_bytes_at
        (slot: u32, offset: u32, count: u32, buffer: *mut u8, length: usize, needed: *mut usize);
    markring_node_unsaved markring_cell_unsaved (flag: *mut u8);
    markring_node_track_freed markring_cell_track_freed (on: u8);
    markring_node_freed markring_cell_freed
        (buffer: *mut RawFreed, room: usize, count: *mut usize);
}
