//! Runs a program on each node of a space, each in a thread. Channels carry the frames.

use crate::{Fault, Lisp, Result};
use markring::{Events, Node, Refusal, Roots, Shape};
use std::cell::{Cell, RefCell};
use std::sync::atomic::{AtomicBool, AtomicUsize, Ordering};
use std::sync::mpsc::{channel, Receiver, Sender};
use std::sync::Mutex;
use std::thread;
use std::time::Duration;

// Joining a cycle looks at all of them.
const REGISTERS: u16 = 10_000;
// The most places and bytes of an object: a frame has four places.
const PLACES: u8 = 4;
const BYTES: u32 = 1 << 20;
// The most that a turn does for the collector: objects that it scans, slots that it sweeps.
const SCANS: u32 = 1_000;
const SWEEPS: u32 = 4_000;
// A cycle is due if there are twice as many objects as the last one left, and these.
const SPARE: u32 = 1_000;
const PAUSE: Duration = Duration::from_millis(1);

/// The names that are built in, first those of special forms. Each is a symbol, whose number is its
/// position here.
pub(crate) const NAMES: &str =
    "quote lambda define if + - * < eq null cons car cdr set-car set-cdr \
    list send receive string? string-length string-append string=? number->string \
    weak-cons weak-car";

// What the interpreters of a space share.
struct Shared {
    nodes: u8,
    ended: AtomicUsize,
    // Whether a node asks for a cycle.
    due: AtomicBool,
    symbols: Mutex<Vec<String>>,
}

// What a node knows of another one.
struct Peer {
    channel: Sender<Vec<u8>>,
    // The numbers of the last frame that was sent to it, and of the last of its frames that was
    // acknowledged.
    sent: u64,
    acknowledged: u64,
}

/// A node with its channels.
pub struct Machine<'s> {
    /// The node.
    pub node: Node,
    own: u8,
    frames: Receiver<Vec<u8>>,
    peers: RefCell<Vec<Peer>>,
    // How many objects there were after the last sweep.
    left: Cell<u32>,
    shared: &'s Shared,
}

impl Machine<'_> {
    /// The number of the node.
    pub fn own(&self) -> u8 {
        self.own
    }

    /// One turn: receives, collects and sends. It returns whether anything happened. The node is
    /// never saved, since a program that ends starts again from its text.
    pub fn turn(&self) -> Result<bool> {
        for frame in self.frames.try_iter() {
            self.node.take(&frame)?;
        }
        self.collect()?;
        let changed = self.node.unsaved()?;
        if changed {
            self.node.release()?;
        }
        self.send()?;
        Ok(changed)
    }

    /// Waits for a frame, but not for long.
    pub fn pause(&self) -> Result<()> {
        if let Ok(frame) = self.frames.recv_timeout(PAUSE) {
            self.node.take(&frame)?;
        }
        Ok(())
    }

    /// Asks node 0 for a cycle.
    pub fn ask_for_cycle(&self) {
        self.shared.due.store(true, Ordering::SeqCst);
    }

    // A few steps of the collector.
    fn collect(&self) -> Result<()> {
        let (node, state) = (&self.node, self.node.state()?);
        if state.swept == state.cycle && state.live > 2 * self.left.get() + SPARE {
            self.ask_for_cycle();
        }
        if self.own == 0 && self.shared.due.swap(false, Ordering::SeqCst) {
            match node.begin() {
                Ok(_) | Err(Refusal::CycleRunning) => {}
                Err(refusal) => return Err(refusal.into()),
            }
        }
        node.work(SCANS, SWEEPS).map_err(Refusal::from)?;
        let after = node.state()?;
        if after.swept > state.swept {
            self.left.set(after.live);
        }
        Ok(())
    }

    // Sends each other node what it hasn't been sent yet. A channel loses nothing and keeps the
    // order, so nothing is sent twice. A node that has ended hears nothing.
    fn send(&self) -> Result<()> {
        let mut peers = self.peers.borrow_mut();
        for (to, peer) in (0..).zip(peers.iter_mut()).filter(|it| it.0 != self.own) {
            for frame in self.node.frames(to, peer.sent)? {
                peer.sent = frame.number;
                let _ = peer.channel.send(frame.bytes);
            }
            let received = self.node.link(to)?.received_saved;
            if received > peer.acknowledged {
                peer.acknowledged = received;
                let _ = peer.channel.send(self.node.ack_for(to)?);
            }
        }
        Ok(())
    }

    /// Whether the programs of all nodes have ended.
    pub fn all_ended(&self) -> bool {
        self.shared.ended.load(Ordering::SeqCst) == usize::from(self.shared.nodes)
    }

    /// The number of a symbol.
    pub fn intern(&self, name: &str) -> i64 {
        let mut symbols = self.shared.symbols.lock().expect("no thread panicked");
        let known = symbols.iter().position(|it| it == name);
        if known.is_none() {
            symbols.push(name.into());
        }
        known.unwrap_or(symbols.len() - 1) as i64
    }

    /// The symbol with this number.
    pub fn name(&self, number: i64) -> String {
        self.shared.symbols.lock().expect("no thread panicked")[number as usize].clone()
    }
}

/// What a space did.
#[derive(Debug)]
pub struct Outcome {
    /// The last value of each node's program, or why it ended early.
    pub values: Vec<String>,
    /// How many collection cycles ended while the programs ran.
    pub cycles: u64,
    /// How many objects each node has once the programs have ended and their garbage is freed.
    pub live: Vec<u32>,
}

// Runs a node's program, and then answers questions until all programs have ended.
fn run_node(machine: &Machine<'_>, program: &str) -> String {
    let roots = Roots::new(&machine.node, 0..REGISTERS);
    let mut lisp = Lisp::new(&roots, machine);
    let value = lisp.run(program);
    machine.shared.ended.fetch_add(1, Ordering::SeqCst);
    let served = lisp.serve();
    value.and_then(|value| served.map(|()| value)).unwrap_or_else(|it| format!("error: {}", it.0))
}

// The nodes of a space, each with the channels of all.
fn machines(shared: &Shared, slots: u32) -> Result<Vec<Machine<'_>>> {
    let shape = Shape::wide(shared.nodes, REGISTERS, slots, PLACES, BYTES);
    let (senders, receivers): (Vec<_>, Vec<_>) = (0..shared.nodes).map(|_| channel()).unzip();
    let peer = |it: &Sender<Vec<u8>>| Peer { channel: it.clone(), sent: 0, acknowledged: 0 };
    let machine = |(own, frames)| {
        let node = Node::with_shape(shape, own, 0)?;
        let peers = RefCell::new(senders.iter().map(peer).collect());
        Ok(Machine { node, own, frames, peers, left: Cell::new(0), shared })
    };
    (0..).zip(receivers).map(machine).collect()
}

/// Runs a program on each node, whose heap has this many objects.
pub fn run(programs: &[&str], slots: u32) -> std::result::Result<Outcome, Fault> {
    let shared = &Shared {
        nodes: programs.len() as u8,
        ended: AtomicUsize::new(0),
        due: AtomicBool::new(false),
        symbols: Mutex::new(NAMES.split(' ').map(String::from).collect()),
    };
    let machines = machines(shared, slots)?;
    let (values, machines): (Vec<_>, Vec<_>) = thread::scope(|scope| {
        let mut threads = Vec::new();
        for (machine, program) in machines.into_iter().zip(programs) {
            threads.push(scope.spawn(move || (run_node(&machine, program), machine)));
        }
        threads.into_iter().map(|it| it.join().expect("no interpreter panics")).unzip()
    });
    let cycles = machines[0].node.state()?.ended;
    // Two more whole cycles, in one thread.
    while machines[0].node.state()?.ended < cycles + 3 {
        shared.due.store(true, Ordering::SeqCst);
        machines.iter().try_for_each(|it| it.turn().map(drop))?;
    }
    let live = machines.iter().map(|it| it.node.state().map(|state| state.live));
    Ok(Outcome { values, cycles, live: live.collect::<markring::Result<_>>()? })
}
