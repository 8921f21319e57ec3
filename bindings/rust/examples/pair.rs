//! Two nodes in two processes, which exchange packets over Unix sockets: each has its own loop, and
//! the host does the rest. Node 1 gets an object of node 0 and drops it; a cycle frees it.
//!
//!     cargo run --features host --example pair FOLDER FOLDER
//!
//! If a process crashes, start it again on its folder: `Host::open` in place of `Host::create`.

use markring::host::{Host, Options, Result, Shape, Transport};
use std::io;
use std::os::unix::net::UnixDatagram;
use std::process::{Child, Command};
use std::time::Duration;

const NODES: u8 = 2;
const LABEL: u32 = 7;
const SHORTEST: Duration = Duration::from_millis(1);
const LONGEST: Duration = Duration::from_secs(1);

/// Sends to the other node's socket. A packet that finds no room in it is lost, and sent again.
struct Sender {
    from: UnixDatagram,
    to: String,
}

impl Transport for Sender {
    fn send(&mut self, _: u8, packet: &[u8]) {
        let _ = self.from.send_to(packet, &self.to);
    }
}

struct Member {
    own: u8,
    socket: UnixDatagram,
    host: Host<Sender>,
    /// The other node has sent an empty packet: it has left.
    is_over: bool,
}

impl Member {
    fn create(own: u8, folders: &[String; 2]) -> Result<Self, Box<dyn std::error::Error>> {
        let [mine, other] = [own, 1 - own].map(|it| format!("{}.socket", folders[usize::from(it)]));
        let (socket, from) = (UnixDatagram::bind(mine)?, UnixDatagram::unbound()?);
        from.set_nonblocking(true)?;
        let shape = Shape {
            name: "pair".into(),
            space: [0; 8], // A real space has a random one.
            own,
            nodes: NODES,
            registers: 4,
            slots: 16,
            limit: 0,
            byte_limit: 0,
            wide: None,
        };
        let options = Options {
            cycle_every: Duration::from_millis(100),
            ..Options::default()
        };
        let folder = &folders[usize::from(own)];
        let host = Host::create(folder, &shape, &options, Sender { from, to: other })?;
        Ok(Member {
            own,
            socket,
            host,
            is_over: false,
        })
    }

    /// One round of the loop: waits for a packet, as long as the host may wait, and takes a turn.
    fn go_round(&mut self) -> io::Result<()> {
        let mut packet = [0; 1 << 16];
        let wait = self.host.wait().clamp(SHORTEST, LONGEST);
        self.socket.set_read_timeout(Some(wait))?;
        match self.socket.recv(&mut packet) {
            Ok(0) => self.is_over = true,
            Ok(length) => self.host.packet(1 - self.own, &packet[..length]),
            Err(_) => {} // Nothing came in time.
        }
        self.host.turn();
        Ok(())
    }

    /// Saves all, and says so.
    fn leave(&mut self) -> io::Result<()> {
        self.host.leave();
        while self.host.ended().is_none() {
            self.go_round()?;
        }
        println!("node {}: {}", self.own, self.host.reason());
        Ok(())
    }
}

// The programs, which call their node between two turns.

fn give_and_wait(it: &mut Member) -> Result<(), Box<dyn std::error::Error>> {
    it.host.perform(|node| {
        node.alloc(0, 0)?;
        node.give(1, LABEL, 0)?;
        node.drop_register(0)
    })?;
    while it.host.state()?.live > 0 {
        it.go_round()?;
    }
    println!("node 0: it is gone");
    it.leave()?;
    it.host.transport().from.set_nonblocking(false)?;
    it.host.transport().send(1, &[]);
    Ok(())
}

fn accept_and_drop(it: &mut Member) -> Result<(), Box<dyn std::error::Error>> {
    let letter = loop {
        match it.host.perform(|node| node.accept(0)) {
            Ok(letter) => break letter,
            Err(_) => it.go_round()?,
        }
    };
    let node = letter.reference.map_or(0, |it| it.node);
    println!(
        "node 1: an object of node {node}, with label {}",
        letter.label
    );
    it.host.perform(|node| node.drop_register(0))?;
    while !it.is_over {
        it.go_round()?;
    }
    Ok(it.leave()?)
}

fn start_other(folders: &[String; 2]) -> io::Result<Child> {
    Command::new(std::env::current_exe()?)
        .args(folders)
        .arg("1")
        .spawn()
}

fn main() -> Result<(), Box<dyn std::error::Error>> {
    let words: Vec<String> = std::env::args().skip(1).collect();
    let [first, second, rest @ ..] = words.as_slice() else {
        return Err("usage: pair FOLDER FOLDER".into());
    };
    let folders = [first.clone(), second.clone()];
    let own = u8::from(!rest.is_empty());
    let mut it = Member::create(own, &folders)?;
    if own == 1 {
        return accept_and_drop(&mut it);
    }
    let mut other = start_other(&folders)?;
    give_and_wait(&mut it)?;
    match other.wait()?.success() {
        true => Ok(()),
        false => Err("node 1 failed".into()),
    }
}
