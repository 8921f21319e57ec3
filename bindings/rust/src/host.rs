//! A node with all that runs it, except for how its packets travel: `markring_host.h`, in Rust. It
//! is what `markring-node` is made of, for programs that have their own loop and transport.
//!
//! A [`Host`] keeps its node in a folder, safe against crashes, or in a PostgreSQL database, whose
//! address `postgresql://USER@HOST/DATABASE#SPACE/NODE` takes the folder's place (libpq is loaded
//! then). It decides what is sent when, collects, and answers requests of
//! [`remote`](crate::remote). The caller brings packets, and its [`Transport`] sends them. One turn
//! after another:
//!
//! ```no_run
//! use markring::host::{Host, Options, Result, Shape, Transport};
//! # use std::time::Duration;
//! # fn receive(longest: Duration) -> Vec<(u8, Vec<u8>)> { vec![] }
//!
//! struct Network;
//!
//! impl Transport for Network {
//!     fn send(&mut self, to: u8, packet: &[u8]) {
//!         // It may be lost.
//!     }
//! }
//!
//! # fn main() -> Result<()> {
//! let mut host = Host::open("folder", &Options::default(), Network)?;
//! while host.ended().is_none() {
//!     for (from, packet) in receive(host.wait()) {
//!         host.packet(from, &packet);
//!     }
//!     host.turn();
//! }
//! # Ok(())
//! # }
//! ```
//!
//! Examples: `examples/pair.rs`.

use crate::ffi;
use crate::{Events, Node, Refusal, State};
use alloc::boxed::Box;
use alloc::ffi::CString;
use alloc::string::{String, ToString};
use core::any::Any;
use core::ffi::{c_char, c_int, c_void, CStr};
use core::panic::AssertUnwindSafe;
use core::ptr::{self, NonNull};
use core::slice;
use core::time::Duration;
use core::{fmt, mem};
use std::ffi::OsStr;
use std::fs::File;
use std::io::{self, Read};
use std::os::unix::ffi::OsStrExt;
use std::panic::{catch_unwind, resume_unwind};
use std::path::Path;
use std::thread;
use std::time::Instant;

/// Packets and requests that one turn should take, at most.
pub const TAKES: usize = 512;
/// Letters of the name of a space, at most: letters, digits, `-` and `_`.
pub const NAME: usize = 32;
/// Bytes of the address for an answer, at most.
pub const REPLY: usize = 127;

/// The result of a call of this module.
pub type Result<T, E = Error> = core::result::Result<T, E>;

/// Why a host can't be created or opened.
#[derive(Debug)]
#[non_exhaustive]
pub enum Error {
    /// The library refused the node: `Memory`, or `BadImage` if the folder's value isn't one.
    Refused(Refusal),
    /// An argument is out of range.
    BadArgument,
    /// An allocation failed.
    Memory,
    /// There is no such folder, or no node in it or in the database.
    Absent,
    /// There is such a node already.
    Exists,
    /// Another process has the folder, or is at work on the row of the database.
    Locked,
    /// What was saved last isn't whole, or has changed since.
    Damaged,
    /// Memory has what the disk hasn't, since a sync failed before. The same may be tried again.
    Stale,
    /// A call of the system failed, or the database refused; the same may be tried again.
    Failed(io::Error),
    /// A sync failed: nobody knows what is on the disk.
    Unknown(io::Error),
    /// A database can't be used, for this reason, which the text says in words for an operator.
    Database(Reason, String),
}

/// Why a database can't be used.
#[derive(Clone, Copy, Debug, PartialEq, Eq, Hash)]
#[non_exhaustive]
pub enum Reason {
    /// The address can't be read, or doesn't say which node.
    Address,
    /// There is a password in the address: write it to a file that `PGPASSFILE` names.
    Password,
    /// PostgreSQL's client library can't be loaded.
    Library,
    /// No server takes a connection now. The same may be tried again.
    Away,
    /// The server refuses this user, this database, or what it is asked for.
    Denied,
    /// There is no schema: [`make_schema`] makes it.
    NoSchema,
    /// The schema is of an earlier version.
    Earlier,
    /// The schema is of a later version.
    Later,
    /// The server takes no changes: it is a standby, or read-only.
    Reads,
    /// The server forgets what it has committed: `synchronous_commit` is off.
    Forgets,
    /// The server's disk is full.
    Full,
    /// What is there is another node, or one of another space, than the address names.
    Other,
    /// Pieces of the node that have to be there aren't.
    Missing,
}

impl fmt::Display for Error {
    fn fmt(&self, f: &mut fmt::Formatter<'_>) -> fmt::Result {
        f.write_str(match self {
            Error::Refused(refusal) => return refusal.fmt(f),
            Error::BadArgument => "an argument is out of range",
            Error::Memory => "an allocation failed",
            Error::Absent => "there is no such folder, or no node in it",
            Error::Exists => "the folder has a node already",
            Error::Locked => "another process has the folder",
            Error::Damaged => "what was saved last is damaged",
            Error::Stale => "memory has what the disk hasn't",
            Error::Database(_, text) => text,
            Error::Failed(error) => return write!(f, "the folder: {error}"),
            Error::Unknown(error) => return write!(f, "a sync of the folder: {error}"),
        })
    }
}

impl std::error::Error for Error {}

/// How packets travel from this node to others, and answers to programs.
pub trait Transport {
    /// Sends a packet to a node. It may be lost, repeated and delayed: the host sends it again.
    fn send(&mut self, to: u8, packet: &[u8]);

    /// Sends an answer to whoever asked with this address. It may be lost.
    fn answer(&mut self, reply: &str, answer: &[u8]) {
        let _ = (reply, answer);
    }

    /// The database of the node can't be reached: waits that long before another attempt, which a
    /// call that saves makes then. After `false` it makes none, and the host ends with
    /// [`End::Unsure`].
    fn pause(&mut self, time: Duration) -> bool {
        thread::sleep(time);
        true
    }
}

/// What a node is, from its creation on.
#[derive(Clone, Debug, PartialEq, Eq)]
pub struct Shape {
    /// The space's name, of up to [`NAME`] letters, digits, `-` and `_`.
    pub name: String,
    /// The space's id: random, and the same for all its nodes. See [`random_id`].
    pub space: [u8; 8],
    /// The node's number.
    pub own: u8,
    /// How many nodes the space has.
    pub nodes: u8,
    /// How many registers the node has.
    pub registers: u16,
    /// How many objects it may have.
    pub slots: u32,
    /// How many messages of programs to one node may be unacknowledged; 0 for any number.
    pub limit: u64,
    /// From how many bytes of letters to one node on programs can post no more; 0 for no bound.
    pub byte_limit: u64,
    /// The most places and bytes of an object, in a wide space.
    pub wide: Option<(u8, u32)>,
}

/// When a node collects, and what it refuses.
#[derive(Clone, Copy, Debug, Default, PartialEq, Eq)]
pub struct Options {
    /// Node 0 begins a cycle this long after the last one; zero for never.
    pub cycle_every: Duration,
    /// Node 0 begins a cycle when there are twice as many objects as after the last one, and at
    /// least this many; 0 for never.
    pub cycle_objects: u32,
    /// The node reclaims when this many objects were made since the last time; 0 for never.
    pub reclaim_objects: u32,
    /// Takes the place of the folder's limit of unacknowledged messages.
    pub limit: Option<u64>,
    /// Takes the place of the folder's limit of bytes.
    pub byte_limit: Option<u64>,
    /// The folder is the newest one, whatever other nodes say: for an operator who knows that a
    /// node has lied.
    pub trusts_folder: bool,
}

/// Why a host has ended.
#[derive(Clone, Copy, Debug, PartialEq, Eq, Hash)]
pub enum End {
    /// It was asked to leave, and all is saved.
    Left,
    /// The folder is older than what other nodes have seen of this node, or is used twice; or
    /// another process has taken over.
    Older,
    /// A sync failed, or a save in a database was given up: nobody knows what is there.
    Unsure,
    /// The node's image is too large to be saved.
    TooLarge,
    /// The library answered what it never answers.
    Broken,
}

/// What a host has counted since it was opened.
#[derive(Clone, Copy, Debug, Default, PartialEq, Eq)]
#[allow(missing_docs)] // they are those of `markring_host_counts`
#[repr(C)]
pub struct Counts {
    pub packets_in: u64,
    pub packets_out: u64,
    pub frames_in: u64,
    pub frames_out: u64,
    pub bytes_out: u64,
    pub saves: u64,
    pub failed_saves: u64,
    pub requests: u64,
    pub repeated_requests: u64,
    pub refused_requests: u64,
    pub foreign: u64,
    pub malformed: u64,
    pub outdated: u64,
    pub repeats: u64,
    pub resends: u64,
    pub full: u64,
    pub dropped: u64,
    pub freed: u64,
    pub reclaimed: u64,
}

#[repr(C)]
struct RawShape {
    name: [u8; NAME + 1],
    space: [u8; 8],
    own: u8,
    nodes: u8,
    registers: u16,
    slots: u32,
    limit: u64,
    byte_limit: u64,
    wide: bool,
    places: u8,
    bytes: u32,
}

#[repr(C)]
struct RawOptions {
    cycle_every: u64,
    cycle_objects: u32,
    reclaim_objects: u32,
    letters_most: u64,
    letter_bytes_most: usize,
    image_most: usize,
    image_tight: usize,
    entries_least: usize,
    trusts_folder: bool,
    has_limit: bool,
    has_byte_limit: bool,
    limit: u64,
    byte_limit: u64,
}

#[repr(C)]
struct RawCalls {
    context: *mut c_void,
    send: extern "C" fn(*mut c_void, u8, *const u8, usize),
    answer: extern "C" fn(*mut c_void, *const c_char, *const u8, usize),
    save: extern "C" fn(*mut c_void, *mut RawValue),
    // None: the host makes whole values itself.
    rewrite: Option<extern "C" fn(*mut c_void)>,
}

#[repr(C)]
struct RawEvents {
    context: *mut c_void,
    pause: extern "C" fn(*mut c_void, u64) -> bool,
    note: extern "C" fn(*mut c_void, bool),
}

#[repr(C)]
struct RawValue {
    buffer: *mut u8,
    length: usize,
    room: usize,
    is_entry: bool,
    end: usize,
    whole: c_int,
}

extern "C" {
    fn markring_place_is_database(at: *const c_char) -> bool;
    fn markring_place_create(
        it: *mut *mut c_void,
        at: *const c_char,
        value: *mut RawValue,
    ) -> c_int;
    fn markring_place_open(it: *mut *mut c_void, at: *const c_char, value: *mut RawValue) -> c_int;
    fn markring_place_make_schema(it: *mut *mut c_void, at: *const c_char) -> c_int;
    fn markring_place_listen(it: *mut c_void, events: *const RawEvents);
    fn markring_place_save(it: *mut c_void, value: *mut RawValue) -> c_int;
    fn markring_place_renew(it: *mut c_void) -> c_int;
    fn markring_place_wait(it: *const c_void) -> u64;
    fn markring_place_serves(it: *const c_void) -> bool;
    fn markring_place_number(it: *const c_void) -> u64;
    fn markring_place_warning(it: *const c_void) -> *const c_char;
    fn markring_place_text(it: *const c_void) -> *const c_char;
    fn markring_place_cause(it: *const c_void) -> c_int;
    fn markring_place_close(it: *mut c_void);
    fn markring_host_create(shape: *const RawShape, value: *mut RawValue) -> c_int;
    fn markring_host_open(
        it: *mut *mut c_void,
        value: *const RawValue,
        number: u64,
        nonce: u64,
        options: *const RawOptions,
        calls: *const RawCalls,
        now: u64,
    ) -> c_int;
    fn markring_host_free(it: *mut c_void);
    fn markring_host_packet(it: *mut c_void, now: u64, from: u8, bytes: *const u8, length: usize);
    fn markring_host_request(
        it: *mut c_void,
        now: u64,
        bytes: *const u8,
        length: usize,
        reply: *const c_char,
    );
    fn markring_host_control(
        it: *mut c_void,
        now: u64,
        word: *const u8,
        length: usize,
        reply: *const c_char,
    );
    fn markring_host_turn(it: *mut c_void, now: u64);
    fn markring_host_saved(it: *mut c_void, now: u64, status: c_int, number: u64);
    fn markring_host_wait(it: *mut c_void, now: u64) -> u64;
    fn markring_host_connected(it: *mut c_void, now: u64);
    fn markring_host_taken(it: *mut c_void);
    fn markring_host_unreachable(it: *mut c_void, now: u64, is_unreachable: bool);
    fn markring_host_leave(it: *mut c_void);
    fn markring_host_ended(it: *const c_void) -> c_int;
    fn markring_host_reason(it: *const c_void) -> *const c_char;
    fn markring_host_counted(it: *const c_void) -> *const Counts;
    fn markring_host_node(it: *mut c_void) -> *mut ffi::Handle;
    fn markring_host_changed(it: *mut c_void);
    fn markring_host_wrote(it: *mut c_void, bytes: usize);
    fn free(block: *mut c_void);
}

/// A random id for a new space.
///
/// # Errors
///
/// If the system gives no random bytes.
pub fn random_id() -> io::Result<[u8; 8]> {
    let mut bytes = [0; 8];
    File::open("/dev/urandom")?.read_exact(&mut bytes)?;
    Ok(bytes)
}

// What the library is given as the context of its calls.
struct Inside<T> {
    transport: T,
    place: *mut c_void,
    host: *mut c_void,
    began: Instant,
    panic: Option<Box<dyn Any + Send>>,
}

impl<T> Inside<T> {
    fn now(&self) -> u64 {
        // (milliseconds from 1 on)
        u64::try_from(self.began.elapsed().as_millis()).map_or(u64::MAX, |it| it.saturating_add(1))
    }

    // A panic doesn't cross the library: the call that led to it goes on with it.
    fn guard(&mut self, act: impl FnOnce(&mut T)) {
        if self.panic.is_none() {
            let transport = &mut self.transport;
            self.panic = catch_unwind(AssertUnwindSafe(|| act(transport))).err();
        }
    }
}

// SAFETY: of each of these, the context is that of the host, which isn't used otherwise meanwhile;
// and the bytes are as long as the library says.
extern "C" fn send<T: Transport>(context: *mut c_void, to: u8, bytes: *const u8, length: usize) {
    let (inside, packet) = unsafe { (&mut *context.cast::<Inside<T>>(), view(bytes, length)) };
    inside.guard(|transport| transport.send(to, packet));
}

extern "C" fn answer<T: Transport>(
    context: *mut c_void,
    reply: *const c_char,
    bytes: *const u8,
    length: usize,
) {
    let inside = unsafe { &mut *context.cast::<Inside<T>>() };
    let (reply, bytes) = unsafe { (CStr::from_ptr(reply), view(bytes, length)) };
    let reply = reply.to_string_lossy();
    inside.guard(|transport| transport.answer(&reply, bytes));
}

extern "C" fn save<T>(context: *mut c_void, value: *mut RawValue) {
    let inside = context.cast::<Inside<T>>();
    unsafe {
        let status = markring_place_save((*inside).place, value);
        let number = markring_place_number((*inside).place);
        markring_host_saved((*inside).host, (*inside).now(), status, number);
    }
}

extern "C" fn pause<T: Transport>(context: *mut c_void, milliseconds: u64) -> bool {
    let inside = unsafe { &mut *context.cast::<Inside<T>>() };
    let (transport, time) = (&mut inside.transport, Duration::from_millis(milliseconds));
    match catch_unwind(AssertUnwindSafe(|| transport.pause(time))) {
        Ok(goes_on) => goes_on,
        Err(panic) => {
            inside.panic.get_or_insert(panic);
            false
        }
    }
}

extern "C" fn note<T>(context: *mut c_void, is_lost: bool) {
    let inside = context.cast::<Inside<T>>();
    unsafe { markring_host_unreachable((*inside).host, (*inside).now(), is_lost) };
}

// SAFETY: the pointer is that of as many bytes, if any.
unsafe fn view<'a>(bytes: *const u8, length: usize) -> &'a [u8] {
    match length {
        0 => &[],
        // SAFETY: as the caller says.
        _ => unsafe { slice::from_raw_parts(bytes, length) },
    }
}

/// A node with all that runs it. One thread at a time uses it. What isn't saved when it is dropped
/// is lost: see [`Host::leave`].
pub struct Host<T: Transport> {
    at: NonNull<c_void>,
    inside: NonNull<Inside<T>>,
}

// SAFETY: nothing else has the pointers, and the library has no thread.
unsafe impl<T: Transport + Send> Send for Host<T> {}

impl<T: Transport> Host<T> {
    /// Makes a new node of a space in a new folder or in a database, and runs it. An address may
    /// leave out which node.
    ///
    /// # Errors
    ///
    /// `BadArgument` if the shape is out of range; `Exists`, `Locked`, `Failed`, `Unknown`,
    /// `Memory`, `Database`. After `Failed` and `Unknown`, remove the folder and create it again.
    pub fn create(
        folder: impl AsRef<Path>,
        shape: &Shape,
        options: &Options,
        transport: T,
    ) -> Result<Self> {
        let raw = shape.to_raw()?;
        let mut value = NO_VALUE;
        // SAFETY: the call fills the value.
        let status = unsafe { markring_host_create(&raw, &mut value) };
        let made = created(status).and_then(|()| {
            Self::start(
                folder.as_ref(),
                options,
                transport,
                &mut value,
                markring_place_create,
            )
        });
        // SAFETY: the library made the block, if any.
        unsafe { free(value.buffer.cast()) };
        made
    }

    /// Runs the node that a folder or a database has, from its last save on. One in a database is
    /// taken over.
    ///
    /// # Errors
    ///
    /// `Absent`, `Locked`, `Damaged`, `Stale`, `Failed`, `Unknown`, `Memory`, `Database`;
    /// `Refused`.
    pub fn open(folder: impl AsRef<Path>, options: &Options, transport: T) -> Result<Self> {
        let mut value = NO_VALUE;
        let made = Self::start(
            folder.as_ref(),
            options,
            transport,
            &mut value,
            markring_place_open,
        );
        // SAFETY: as above.
        unsafe { free(value.buffer.cast()) };
        made
    }

    // Has the place opened, and then the host.
    fn start(
        folder: &Path,
        options: &Options,
        transport: T,
        value: &mut RawValue,
        open: unsafe extern "C" fn(*mut *mut c_void, *const c_char, *mut RawValue) -> c_int,
    ) -> Result<Self> {
        let nonce = u64::from_ne_bytes(random_id().map_err(Error::Failed)?) | 1;
        // SAFETY: the path ends with a zero; the value is that of the library, or empty.
        let place = use_place(folder, |it, at| unsafe { open(it, at, value) })?;
        let inside = Box::new(Inside {
            transport,
            place,
            host: ptr::null_mut(),
            began: Instant::now(),
            panic: None,
        });
        // SAFETY: the place is open.
        let (now, number) = (inside.now(), unsafe { markring_place_number(place) });
        let inside = NonNull::from(Box::leak(inside));
        let calls = RawCalls {
            context: inside.as_ptr().cast(),
            send: send::<T>,
            answer: answer::<T>,
            save: save::<T>,
            rewrite: None,
        };
        let (options, mut host) = (options.to_raw(), ptr::null_mut());
        // SAFETY: the value is that of the store; the context stays until the host is freed.
        unsafe {
            let status = markring_host_open(&mut host, value, number, nonce, &options, &calls, now);
            (*inside.as_ptr()).host = host;
            match (created(status), NonNull::new(host)) {
                (Ok(()), Some(at)) => {
                    let events = RawEvents {
                        context: inside.as_ptr().cast(),
                        pause: pause::<T>,
                        note: note::<T>,
                    };
                    markring_place_listen(place, &events);
                    Ok(Host { at, inside })
                }
                (opened, _) => {
                    close(inside);
                    Err(opened.err().unwrap_or(Error::Memory))
                }
            }
        }
    }

    // Calls the library, and goes on with a panic of the transport.
    fn call<R>(&mut self, act: impl FnOnce(*mut c_void, u64) -> R) -> R {
        // SAFETY: nothing else uses it now; no reference to it stays while the library calls.
        let now = unsafe { (*self.inside.as_ptr()).now() };
        let done = act(self.at.as_ptr(), now);
        // SAFETY: as before.
        let panic = unsafe { mem::take(&mut (*self.inside.as_ptr()).panic) };
        panic.map_or(done, |it| resume_unwind(it))
    }

    /// A packet came, from the node that the transport names as its sender.
    pub fn packet(&mut self, from: u8, packet: &[u8]) {
        let (bytes, length) = (packet.as_ptr(), packet.len());
        // SAFETY: the bytes live until the call is over.
        self.call(|at, now| unsafe { markring_host_packet(at, now, from, bytes, length) });
    }

    /// A request of a program came. The answer goes to `reply`, once all that it shows is stored.
    /// It is dropped while another process could serve the programs of a node in a database.
    ///
    /// # Errors
    ///
    /// `BadArgument` if the address is longer than [`REPLY`] bytes, or has a zero.
    pub fn request(&mut self, request: &[u8], reply: &str) -> Result<()> {
        let reply = address(reply)?;
        let (bytes, length, place) = (request.as_ptr(), request.len(), self.place());
        // SAFETY: both live until the call is over.
        self.call(|at, now| unsafe {
            if markring_place_serves(place) {
                markring_host_request(at, now, bytes, length, reply.as_ptr());
            }
        });
        Ok(())
    }

    /// A word of the operator came: `status`, `begin` or `stop`. The answer is JSON.
    ///
    /// # Errors
    ///
    /// Those of [`Host::request`].
    pub fn control(&mut self, word: &str, reply: &str) -> Result<()> {
        let reply = address(reply)?;
        let (bytes, length) = (word.as_ptr(), word.len());
        // SAFETY: as above.
        self.call(|at, now| unsafe {
            markring_host_control(at, now, bytes, length, reply.as_ptr());
        });
        Ok(())
    }

    /// Collects, saves if a save is due, answers programs and sends packets. In a database, it also
    /// shows each second that this process has the node.
    pub fn turn(&mut self) {
        let place = self.place();
        // SAFETY: the host and its place are open.
        self.call(|at, _| unsafe {
            if markring_place_renew(place) == TAKEN {
                markring_host_taken(at);
            }
        });
        // SAFETY: as above.
        self.call(|at, now| unsafe { markring_host_turn(at, now) });
    }

    /// How long the next turn may wait, if nothing comes.
    #[must_use]
    pub fn wait(&mut self) -> Duration {
        let place = self.place();
        // SAFETY: as above.
        let wait = self
            .call(|at, now| unsafe { markring_host_wait(at, now).min(markring_place_wait(place)) });
        Duration::from_millis(wait)
    }

    /// What an operator should know of the settings of the database's server, if anything.
    #[must_use]
    pub fn warning(&self) -> Option<String> {
        // SAFETY: the place is open, and its text stays until the next call.
        unsafe { text_at(markring_place_warning(self.place())) }
    }

    fn place(&self) -> *mut c_void {
        // SAFETY: the library calls nobody now.
        unsafe { (*self.inside.as_ptr()).place }
    }

    /// The transport has a connection again after it had none: what isn't acknowledged is sent
    /// again.
    pub fn connected(&mut self) {
        // SAFETY: as above.
        self.call(|at, now| unsafe { markring_host_connected(at, now) });
    }

    /// Asks the host to save all and to leave. Take turns until [`Host::ended`] says that it has.
    pub fn leave(&mut self) {
        // SAFETY: as above.
        self.call(|at, _| unsafe { markring_host_leave(at) });
    }

    /// Why the host has ended, if it has. No call does anything any more then.
    #[must_use]
    pub fn ended(&self) -> Option<End> {
        // SAFETY: as above.
        match unsafe { markring_host_ended(self.at.as_ptr()) } {
            0 => None,
            1 => Some(End::Left),
            2 => Some(End::Older),
            3 => Some(End::Unsure),
            4 => Some(End::TooLarge),
            _ => Some(End::Broken),
        }
    }

    /// The same in words for an operator.
    #[must_use]
    pub fn reason(&self) -> String {
        // SAFETY: the text stays until the next call.
        let text = unsafe { CStr::from_ptr(markring_host_reason(self.at.as_ptr())) };
        text.to_string_lossy().to_string()
    }

    /// What the host has counted.
    #[must_use]
    pub fn counts(&self) -> Counts {
        // SAFETY: the host is open.
        unsafe { *markring_host_counted(self.at.as_ptr()) }
    }

    /// Performs events of a program that is linked to the host, between two turns: about ten. What
    /// they did is durable once it was saved, which a later turn does. After more of them, or ones
    /// that have bytes, call [`Host::wrote`].
    pub fn perform<R>(&mut self, act: impl FnOnce(&dyn Events) -> R) -> R {
        let done = act(self.node());
        if self.node().unsaved().unwrap_or(true) {
            // SAFETY: the host is open.
            unsafe { markring_host_changed(self.at.as_ptr()) };
        }
        done
    }

    /// The node in numbers.
    ///
    /// # Errors
    ///
    /// None of a node that runs.
    pub fn state(&self) -> crate::Result<State> {
        self.node().state()
    }

    fn node(&self) -> &Node {
        // SAFETY: a node is a handle and nothing else. The host's lives as long as the host, whom
        // no other thread uses now.
        unsafe { &*markring_host_node(self.at.as_ptr()).cast::<Node>() }
    }

    /// The events wrote about this many bytes.
    pub fn wrote(&mut self, bytes: usize) {
        // SAFETY: the host is open.
        unsafe { markring_host_wrote(self.at.as_ptr(), bytes) };
    }

    /// The transport.
    pub fn transport(&mut self) -> &mut T {
        // SAFETY: the library calls nobody now.
        unsafe { &mut (*self.inside.as_ptr()).transport }
    }
}

impl<T: Transport> Drop for Host<T> {
    fn drop(&mut self) {
        // SAFETY: nothing uses either after this.
        unsafe {
            markring_host_free(self.at.as_ptr());
            close(self.inside);
        }
    }
}

impl<T: Transport> fmt::Debug for Host<T> {
    fn fmt(&self, f: &mut fmt::Formatter<'_>) -> fmt::Result {
        f.debug_struct("Host")
            .field("ended", &self.ended())
            .finish_non_exhaustive()
    }
}

// SAFETY: the place is open, and nothing uses the context any more.
unsafe fn close<T>(inside: NonNull<Inside<T>>) {
    // SAFETY: it was a box, whose events the place may call until it is closed.
    unsafe {
        markring_place_close((*inside.as_ptr()).place);
        drop(Box::from_raw(inside.as_ptr()));
    }
}

// SAFETY: the text ends with a zero, if there is any.
unsafe fn text_at(text: *const c_char) -> Option<String> {
    // SAFETY: as the caller says.
    (!text.is_null()).then(|| unsafe { CStr::from_ptr(text).to_string_lossy().to_string() })
}

/// Makes the schema for nodes in a database, `postgresql://USER@HOST/DATABASE`, unless it has one of
/// this version.
///
/// # Errors
///
/// `Database`, `Memory`, `Failed`; `BadArgument` if there is a zero in the address.
pub fn make_schema(address: &str) -> Result<()> {
    // SAFETY: the address ends with a zero.
    let place = use_place(Path::new(address), |it, at| unsafe {
        markring_place_make_schema(it, at)
    })?;
    // SAFETY: the library made it.
    unsafe { markring_place_close(place) };
    Ok(())
}

// Has a place opened.
fn use_place(
    path: &Path,
    open: impl FnOnce(*mut *mut c_void, *const c_char) -> c_int,
) -> Result<*mut c_void> {
    let path = OsStr::as_bytes(path.as_os_str());
    let path = CString::new(path).map_err(|_| Error::BadArgument)?;
    let mut place = ptr::null_mut();
    let status = open(&mut place, path.as_ptr());
    if status == 0 {
        return Ok(place);
    }
    // SAFETY: these take the place as the library left it.
    unsafe {
        let text = text_at(markring_place_text(place)).unwrap_or_default();
        let (is_database, cause) = (
            markring_place_is_database(path.as_ptr()),
            markring_place_cause(place),
        );
        markring_place_close(place);
        let failed = if is_database {
            io::Error::new(io::ErrorKind::Other, text.as_str())
        } else {
            io::Error::from_raw_os_error(cause)
        };
        Err(stored(status, failed, text))
    }
}

const NO_VALUE: RawValue = RawValue {
    buffer: ptr::null_mut(),
    length: 0,
    room: 0,
    is_entry: false,
    end: 0,
    whole: 0,
};

impl Shape {
    fn to_raw(&self) -> Result<RawShape> {
        let letters = self.name.as_bytes();
        let is_letter = |it: &u8| it.is_ascii_alphanumeric() || *it == b'-' || *it == b'_';
        if letters.is_empty() || letters.len() > NAME || !letters.iter().all(is_letter) {
            return Err(Error::BadArgument);
        }
        let mut name = [0; NAME + 1];
        name[..letters.len()].copy_from_slice(letters);
        let (places, bytes) = self.wide.unwrap_or((0, 0));
        Ok(RawShape {
            name,
            space: self.space,
            own: self.own,
            nodes: self.nodes,
            registers: self.registers,
            slots: self.slots,
            limit: self.limit,
            byte_limit: self.byte_limit,
            wide: self.wide.is_some(),
            places,
            bytes,
        })
    }
}

impl Options {
    fn to_raw(self) -> RawOptions {
        RawOptions {
            cycle_every: u64::try_from(self.cycle_every.as_millis()).unwrap_or(u64::MAX),
            cycle_objects: self.cycle_objects,
            reclaim_objects: self.reclaim_objects,
            letters_most: 0,
            letter_bytes_most: 0,
            image_most: 0,
            image_tight: 0,
            entries_least: 0,
            trusts_folder: self.trusts_folder,
            has_limit: self.limit.is_some(),
            has_byte_limit: self.byte_limit.is_some(),
            limit: self.limit.unwrap_or(0),
            byte_limit: self.byte_limit.unwrap_or(0),
        }
    }
}

fn address(reply: &str) -> Result<CString> {
    if reply.len() > REPLY {
        return Err(Error::BadArgument);
    }
    CString::new(reply).map_err(|_| Error::BadArgument)
}

fn created(status: c_int) -> Result<()> {
    crate::refusal::checked(status).map_err(|it| match it {
        Refusal::Memory => Error::Memory,
        Refusal::BadArgument => Error::BadArgument,
        refusal => Error::Refused(refusal),
    })
}

const TAKEN: c_int = 9;

fn stored(status: c_int, failed: io::Error, text: String) -> Error {
    let reason = match status {
        1 => return Error::Memory,
        2 => return Error::Absent,
        3 => return Error::Exists,
        4 => return Error::Locked,
        5 => return Error::Damaged,
        6 => return Error::Stale,
        7 => return Error::Failed(failed),
        10 => Reason::Address,
        11 => Reason::Password,
        12 => Reason::Library,
        13 => Reason::Away,
        14 => Reason::Denied,
        15 => Reason::NoSchema,
        16 => Reason::Earlier,
        17 => Reason::Later,
        18 => Reason::Reads,
        19 => Reason::Forgets,
        20 => Reason::Full,
        21 => Reason::Other,
        22 => Reason::Missing,
        _ => return Error::Unknown(failed),
    };
    Error::Database(reason, text)
}
