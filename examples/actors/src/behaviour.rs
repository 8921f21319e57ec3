//! What actors do. An actor's bytes say which behaviour it has, and its state.

use crate::turn::Turn;
use crate::{ACTOR, FIRST, GUARDIAN, SPARE};
use markring::{Event, Letter};

/// How often the message goes round.
const ROUNDS: u64 = 3;

/// What actors say to each other. Each message has a reference besides that of its actor, and a
/// number.
#[derive(Clone, Copy, Debug, PartialEq, Eq)]
pub enum Message {
    /// A guardian makes itself known to that of node 0.
    Hello = 1,
    /// The guardian of node 0 asks another one for a worker.
    Make = 2,
    /// The worker.
    Made = 3,
    /// A worker's neighbour; the number is that of its node.
    Join = 4,
    /// Goes on to the neighbour that many times, and then to the guardian of node 0.
    Pass = 5,
    /// It went round.
    Done = 6,
}

impl Message {
    /// The message that a letter is, and its number.
    pub fn of(letter: &Letter, bytes: &[u8]) -> Option<(Message, u64)> {
        let all = [
            Message::Hello,
            Message::Make,
            Message::Made,
            Message::Join,
            Message::Pass,
            Message::Done,
        ];
        let message = all.into_iter().find(|it| *it as u32 == letter.label)?;
        Some((message, u64::from_be_bytes(bytes.try_into().ok()?)))
    }
}

/// An actor, as its bytes say.
pub enum Behaviour {
    Guardian(Guardian),
    Worker(Worker),
}

/// How many nodes there are, and how many of the others have said hello, and have made a worker.
/// Its place `i` has the guardian of node `i`, and `nodes + i` that node's worker.
pub struct Guardian {
    pub nodes: u8,
    pub known: u8,
    pub made: u8,
}

/// The node of its neighbour, which is in its only place.
pub struct Worker {
    pub next: u8,
}

impl Behaviour {
    pub fn of(bytes: &[u8]) -> Option<Self> {
        match *bytes {
            [0, nodes, known, made] => Some(Behaviour::Guardian(Guardian { nodes, known, made })),
            [1, next] => Some(Behaviour::Worker(Worker { next })),
            _ => None,
        }
    }

    pub fn receive(self, turn: &mut Turn, from: u8, message: Message, number: u64) {
        match self {
            Behaviour::Guardian(it) => it.receive(turn, from, message),
            Behaviour::Worker(it) => it.receive(turn, message, number),
        }
    }
}

impl Guardian {
    pub fn to_bytes(&self) -> Vec<u8> {
        vec![0, self.nodes, self.known, self.made]
    }

    fn receive(mut self, turn: &mut Turn, from: u8, message: Message) {
        let others = self.nodes - 1;
        match message {
            Message::Hello => {
                turn.event(Event::Store { object: GUARDIAN, place: from, register: FIRST });
                self.known += 1;
                if self.known == others {
                    self.ask_for_workers(turn);
                }
            }
            Message::Make => make_worker(turn, from),
            Message::Made => {
                let place = self.nodes + from;
                turn.event(Event::Store { object: GUARDIAN, place, register: FIRST });
                self.made += 1;
                if self.made == others {
                    self.begin_round(turn);
                }
            }
            Message::Done => {
                println!("the message went round {ROUNDS} times");
                turn.is_last = true;
            }
            Message::Join | Message::Pass => {}
        }
        turn.set_bytes(GUARDIAN, self.to_bytes());
    }

    fn ask_for_workers(&self, turn: &mut Turn) {
        for to in 1..self.nodes {
            turn.event(Event::Load { register: SPARE, object: GUARDIAN, place: to });
            turn.send(to, Message::Make, SPARE, GUARDIAN, 0);
            turn.event(Event::Drop { register: SPARE });
        }
    }

    // Joins the workers, sends the first one a message, and forgets them all.
    fn begin_round(&self, turn: &mut Turn) {
        let others = u64::from(self.nodes - 1);
        println!("a ring of {others} workers over {others} nodes");
        for to in 1..self.nodes {
            let next = if to + 1 == self.nodes { 1 } else { to + 1 };
            self.load_worker(turn, SPARE, to);
            self.load_worker(turn, SPARE + 1, next);
            turn.send(to, Message::Join, SPARE, SPARE + 1, next.into());
        }
        self.load_worker(turn, SPARE, 1);
        turn.send(1, Message::Pass, SPARE, GUARDIAN, ROUNDS * others);
        for register in [SPARE, SPARE + 1] {
            turn.event(Event::Drop { register });
        }
        for node in 1..self.nodes {
            turn.event(Event::Clear { object: GUARDIAN, place: self.nodes + node });
        }
    }

    fn load_worker(&self, turn: &mut Turn, register: u16, node: u8) {
        turn.event(Event::Load { register, object: GUARDIAN, place: self.nodes + node });
    }
}

fn make_worker(turn: &mut Turn, from: u8) {
    turn.event(Event::Alloc { register: SPARE, places: 1 });
    turn.set_bytes(SPARE, Worker { next: 0 }.to_bytes());
    turn.send(from, Message::Made, FIRST, SPARE, 0);
    turn.event(Event::Drop { register: SPARE });
}

impl Worker {
    fn to_bytes(&self) -> Vec<u8> {
        vec![1, self.next]
    }

    fn receive(self, turn: &mut Turn, message: Message, number: u64) {
        match message {
            Message::Join => {
                turn.event(Event::Store { object: ACTOR, place: 0, register: FIRST });
                turn.set_bytes(ACTOR, Worker { next: number as u8 }.to_bytes());
            }
            Message::Pass if number == 0 => turn.send(0, Message::Done, FIRST, ACTOR, 0),
            Message::Pass => {
                turn.event(Event::Load { register: SPARE, object: ACTOR, place: 0 });
                turn.send(self.next, Message::Pass, SPARE, FIRST, number - 1);
                turn.event(Event::Drop { register: SPARE });
            }
            _ => {}
        }
    }
}
