//! Actors on all nodes of a space whose nodes run in processes.
//!
//!     actors NODE NODES SPACE URL [OPERATOR]
//!
//! An actor is an object: its bytes are its state, its places the actors that it knows. A message
//! is a letter, whose first reference is the actor that it is for. One such process runs the actors
//! of a node: it takes the node's letters in order, and does what each asks for.
//!
//! The guardian of node 0 has a worker made on each other node, joins them to a ring, and lets a
//! message go round. Then it drops them: nobody knows the ring any more, but each of its actors is
//! known by another one. A collection cycle frees them, which it begins as an operator, at a URL of
//! its own.
//!
//! A message is handled once, whatever crashes: the request that performs what it asks for also
//! accepts the next one, so a process that begins again finds in the last answer which is next.

mod behaviour;
mod turn;

use behaviour::{Behaviour, Guardian, Message};
use markring::remote::{Failure, Options, Outcome, Program, Result, Space, Step, LETTER};
use markring::{Event, Letter, Refusal};
use std::time::Duration;
use turn::Turn;

/// The register of the node's guardian, an actor that is always there.
pub const GUARDIAN: u16 = 0;
/// A letter's references go into these two: the actor that it is for, and another one.
pub const ACTOR: u16 = 1;
pub const FIRST: u16 = 2;
/// From here on a turn may use two registers, and leaves them empty.
pub const SPARE: u16 = 3;
/// What is sent is put together from this register on.
pub const OUT: u16 = 5;

const ANSWER: Duration = Duration::from_secs(10);
const PAUSE: Duration = Duration::from_millis(20);

type Came = Option<(Letter, Vec<u8>)>;

fn main() {
    let words: Vec<String> = std::env::args().skip(1).collect();
    let numbers = |at: usize| words.get(at).and_then(|word| word.parse().ok());
    let (Some(node), Some(nodes), 4..=5) = (numbers(0), numbers(1), words.len()) else {
        eprintln!("usage: actors NODE NODES SPACE URL [OPERATOR]");
        std::process::exit(2);
    };
    let done = run(node, nodes, &words[2], &words[3]);
    let done = done.and_then(|()| match words.get(4) {
        Some(operator) => expect_alone(&words[2], operator, nodes),
        None => Ok(()),
    });
    if let Err(failure) = done {
        eprintln!("node {node}: {failure}");
        std::process::exit(1);
    }
}

/// Runs the actors of a node, until the guardian has nothing left to do.
fn run(node: u8, nodes: u8, name: &str, url: &str) -> Result<()> {
    let space = Space::connect(name, &Options::new(url))?;
    let mut program = space.program(node, 0, ANSWER)?;
    let mut came = match program.last()?.pop() {
        Some(outcome) => letter_of(outcome)?,
        None => begin(&mut program, nodes)?,
    };
    loop {
        let turn = match &came {
            Some((letter, bytes)) => handle(&mut program, letter, bytes)?,
            None => Turn::default(),
        };
        if came.is_none() {
            match program.wait(ANSWER) {
                Ok(_) | Err(Failure::TimedOut) => {}
                Err(failure) => return Err(failure),
            }
        }
        came = perform(&mut program, &turn)?;
        if turn.is_last {
            return Ok(());
        }
    }
}

/// Makes the guardian. Those of other nodes make themselves known to that of node 0.
fn begin(program: &mut Program<'_>, nodes: u8) -> Result<Came> {
    let mut turn = Turn::default();
    let places = 2 * nodes;
    turn.event(Event::Alloc { register: GUARDIAN, places });
    turn.set_bytes(GUARDIAN, Guardian { nodes, known: 0, made: 0 }.to_bytes());
    if program.node() != 0 {
        // (the letter is for the guardian, whom nobody can name yet)
        turn.event(Event::Copy { register: OUT + 1, source: GUARDIAN });
        turn.post(0, Message::Hello, 0);
        turn.event(Event::Drop { register: OUT + 1 });
    }
    perform(program, &turn)
}

/// What a letter asks for. The registers that it has filled are emptied at the end.
fn handle(program: &mut Program<'_>, letter: &Letter, bytes: &[u8]) -> Result<Turn> {
    let mut turn = Turn::default();
    let has_actor = letter.reference.is_some();
    let actor = if has_actor { ACTOR } else { GUARDIAN };
    let length = program.bytes_len(actor)?;
    let state = program.read_bytes(actor, 0, length as u32)?;
    let behaviour = Behaviour::of(&state).ok_or(Failure::Confused)?;
    let (message, number) = Message::of(letter, bytes).ok_or(Failure::Confused)?;
    behaviour.receive(&mut turn, letter.from, message, number);
    turn.event(Event::Drop { register: FIRST });
    if has_actor {
        turn.event(Event::Drop { register: ACTOR });
    }
    Ok(turn)
}

/// Performs a turn, and accepts the next letter. Events that a busy link refuses are tried again.
fn perform(program: &mut Program<'_>, turn: &Turn) -> Result<Came> {
    let (register, room) = (ACTOR, LETTER);
    let mut steps = turn.steps();
    steps.push(Step::AcceptWithBytes { register, room });
    loop {
        let mut outcomes = program.perform(&steps);
        while let Err(Failure::TimedOut) = outcomes {
            outcomes = program.finish();
        }
        let outcomes = outcomes?;
        let refused = |it: &Outcome| matches!(it, Outcome::Refused(_));
        match outcomes.iter().position(refused) {
            Some(at) if outcomes[at] == Outcome::Refused(Refusal::Congested) => {
                steps.drain(..at);
                std::thread::sleep(PAUSE);
            }
            _ => return outcomes.into_iter().last().map_or(Ok(None), letter_of),
        }
    }
}

/// The letter that the last event of a request has accepted, if any waited.
fn letter_of(outcome: Outcome) -> Result<Came> {
    match outcome {
        Outcome::Letter(letter, bytes) => Ok(Some((letter, bytes))),
        Outcome::Refused(Refusal::NoLetter) => Ok(None),
        Outcome::Refused(refusal) => Err(refusal.into()),
        Outcome::Apart => Err(Failure::Apart),
        Outcome::Done(_) | Outcome::NotDone => Err(Failure::Confused),
    }
}

/// Begins cycles until each node has its guardian alone.
fn expect_alone(name: &str, operator: &str, nodes: u8) -> Result<()> {
    let space = Space::connect(name, &Options::new(operator))?;
    loop {
        space.ask(0, "begin", ANSWER)?;
        std::thread::sleep(PAUSE);
        let mut live = Vec::new();
        for node in 0..nodes {
            live.push(
                number(&space.ask(node, "status", ANSWER)?, "live").ok_or(Failure::Confused)?,
            );
        }
        if live.iter().all(|count| *count == 1) {
            println!("the ring is gone: each node has its guardian alone");
            return Ok(());
        }
    }
}

/// A number of a node's status.
fn number(status: &str, name: &str) -> Option<u64> {
    let behind = status.split(&format!("\"{name}\": ")).nth(1)?;
    let end = behind.find(|it: char| !it.is_ascii_digit())?;
    behind[..end].parse().ok()
}
