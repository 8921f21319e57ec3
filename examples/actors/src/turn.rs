//! What an actor does in answer to a message, as events of one request.

use crate::behaviour::Message;
use crate::OUT;
use markring::remote::Step;
use markring::Event;

enum Action {
    Event(Event),
    SetBytes(u16, Vec<u8>),
    Post { to: u8, message: Message, number: [u8; 8] },
}

/// The events of a turn, in order.
#[derive(Default)]
pub struct Turn {
    actions: Vec<Action>,
    /// Whether nothing is left to do after it.
    pub is_last: bool,
}

impl Turn {
    pub fn event(&mut self, event: Event) {
        self.actions.push(Action::Event(event));
    }

    pub fn set_bytes(&mut self, object: u16, bytes: Vec<u8>) {
        self.actions.push(Action::SetBytes(object, bytes));
    }

    /// Sends what the two registers from `OUT` on hold, and a number.
    pub fn post(&mut self, to: u8, message: Message, number: u64) {
        let number = number.to_be_bytes();
        self.actions.push(Action::Post { to, message, number });
    }

    /// Sends a message to an actor, with a reference.
    pub fn send(&mut self, to: u8, message: Message, actor: u16, with: u16, number: u64) {
        for (register, source) in [(OUT, actor), (OUT + 1, with)] {
            self.event(Event::Copy { register, source });
        }
        self.post(to, message, number);
        for register in [OUT, OUT + 1] {
            self.event(Event::Drop { register });
        }
    }

    pub fn steps(&self) -> Vec<Step<'_>> {
        self.actions.iter().map(Action::step).collect()
    }
}

impl Action {
    fn step(&self) -> Step<'_> {
        match self {
            Action::Event(event) => Step::Event(*event),
            Action::SetBytes(object, bytes) => Step::SetBytes { object: *object, bytes },
            Action::Post { to, message, number } => {
                Step::Post { to: *to, label: *message as u32, first: OUT, count: 2, bytes: number }
            }
        }
    }
}
