//! Requests under way, over a client whose nodes are in it, and which loses answers: the variable
//! `MARKRING_REMOTE_LIB_DIR` names the folder into which host/tests/model has built it.

use markring::remote::{Failure, Options, Outcome, Program, Request, Result, Space, Step};
use markring::remote::{Since, Tracked, EVENTS, UNDER_WAY};
use markring::{Answer, Event, Gone, Ref, Refusal, Weak, WeakTable};
use std::future::Future;
use std::os::raw::{c_int, c_short, c_ulong};
use std::os::unix::io::{AsFd, AsRawFd};
use std::pin::Pin;
use std::sync::atomic::{AtomicUsize, Ordering};
use std::sync::{Arc, Mutex, MutexGuard};
use std::task::{Context, Poll, Wake, Waker};
use std::time::{Duration, Instant};

const KEPT: Duration = Duration::from_secs(60);
const SOON: Duration = Duration::from_secs(5);
const SHORT: Duration = Duration::from_millis(300);
const MANY: c_int = 1 << 30;

extern "C" {
    fn model_begin() -> c_int;
    fn model_lose(requests: c_int, answers: c_int);
    fn model_restart(node: c_int) -> c_int;
    fn model_performed(node: c_int) -> u64;
    fn poll(descriptors: *mut Polled, count: c_ulong, time: c_int) -> c_int;
}

#[repr(C)]
struct Polled {
    descriptor: c_int,
    events: c_short,
    came: c_short,
}

fn lose(requests: c_int, answers: c_int) {
    unsafe { model_lose(requests, answers) }
}

fn is_readable(space: &Space, time: c_int) -> bool {
    let mut it = Polled {
        descriptor: space.as_raw_fd(),
        events: 1,
        came: 0,
    };
    assert_eq!(space.as_fd().as_raw_fd(), it.descriptor);
    unsafe { poll(&mut it, 1, time) == 1 }
}

// The model has one space.
static ONE: Mutex<()> = Mutex::new(());

struct Test {
    space: Space,
    _one: MutexGuard<'static, ()>,
}

fn begin() -> Test {
    let one = ONE.lock().unwrap_or_else(|it| it.into_inner());
    assert_eq!(unsafe { model_begin() }, 0);
    let space = Space::connect("model", &Options::new("nats://program:x@none:4222")).unwrap();
    Test { space, _one: one }
}

impl Test {
    fn program(&self, node: u8) -> Program<'_> {
        self.space.program(node, 0, KEPT).unwrap()
    }
}

const fn reference(node: u8, slot: u32) -> Ref {
    Ref {
        node,
        slot,
        generation: 1,
    }
}

fn alloc(register: u16) -> Step<'static> {
    Event::Alloc {
        register,
        places: 1,
    }
    .into()
}

fn word(object: u16) -> Step<'static> {
    Event::Word { object }.into()
}

fn set_word(object: u16, word: u64) -> Step<'static> {
    Event::SetWord { object, word }.into()
}

#[derive(Default)]
struct Count(AtomicUsize);

impl Wake for Count {
    fn wake(self: Arc<Self>) {
        self.0.fetch_add(1, Ordering::SeqCst);
    }
}

fn poll_once<T>(request: &mut Request<'_, T>, count: &Arc<Count>) -> Poll<Result<T>> {
    let waker = Waker::from(count.clone());
    Pin::new(request).poll(&mut Context::from_waker(&waker))
}

// What an executor does: it waits for the descriptor, and has the program wake its tasks.
fn run<T>(test: &Test, program: &Program<'_>, mut request: Request<'_, T>) -> Result<T> {
    let count = Arc::<Count>::default();
    loop {
        let wakes = count.0.load(Ordering::SeqCst);
        if let Poll::Ready(outcome) = poll_once(&mut request, &count) {
            return outcome;
        }
        while count.0.load(Ordering::SeqCst) == wakes {
            assert!(is_readable(&test.space, SOON.as_millis() as c_int));
            program.take_answers();
        }
    }
}

#[test]
fn requests_are_performed_once_and_in_order() {
    let test = begin();
    let mut program = test.program(0);
    program.one(alloc(0)).unwrap();
    let before = unsafe { model_performed(0) };
    lose(1, 2);
    let mut requests = Vec::new();
    for number in 0..30 {
        requests.push((
            program.send(&[set_word(0, number), word(0)]).unwrap(),
            program.send_registers(&[0, 1]).unwrap(),
        ));
        if number % 10 == 9 {
            assert_eq!(unsafe { model_restart(0) }, 0);
            for (number, (request, registers)) in requests.drain(..).enumerate() {
                let outcomes = if number % 2 == 0 {
                    run(&test, &program, request).unwrap()
                } else {
                    request.wait().unwrap()
                };
                assert!(matches!(outcomes[..], [_, Outcome::Done(Answer::Word(it))]
                    if it % 10 == number as u64));
                assert_eq!(registers.wait().unwrap(), [Some(reference(0, 0)), None]);
            }
            lose(0, 2);
        }
    }
    assert_eq!(unsafe { model_performed(0) }, before + 30);
}

#[test]
fn an_answer_wakes_whoever_waits_for_it() {
    let test = begin();
    let program = test.program(0);
    lose(2, 0);
    let (first, second) = (Arc::<Count>::default(), Arc::<Count>::default());
    let mut one = program.send(&[alloc(0)]).unwrap();
    let mut other = program.send_read_bytes(0, 0, 0).unwrap();
    assert!(poll_once(&mut one, &first).is_pending());
    assert!(poll_once(&mut other, &first).is_pending());
    // The waker of the last time counts.
    assert!(poll_once(&mut other, &second).is_pending());
    assert!(is_readable(&test.space, 60_000));
    let end = Instant::now() + SOON;
    while second.0.load(Ordering::SeqCst) == 0 && Instant::now() < end {
        program.take_answers();
    }
    assert_eq!(
        (
            first.0.load(Ordering::SeqCst),
            second.0.load(Ordering::SeqCst)
        ),
        (1, 1)
    );
    assert!(!is_readable(&test.space, 0));
    assert_eq!(poll_once(&mut other, &second), Poll::Ready(Ok((0, vec![]))));
    let allocated = vec![Outcome::Done(Answer::New(reference(0, 0)))];
    assert_eq!(poll_once(&mut one, &first), Poll::Ready(Ok(allocated)));
    let again =
        std::panic::catch_unwind(std::panic::AssertUnwindSafe(|| poll_once(&mut one, &first)));
    assert!(again.is_err());
}

#[test]
fn too_many_are_refused() {
    let test = begin();
    let program = test.program(0);
    lose(MANY, 0);
    let requests: Vec<_> = (0..UNDER_WAY)
        .map(|_| program.send(&[word(0)]).unwrap())
        .collect();
    assert_eq!(program.send(&[word(0)]).unwrap_err(), Failure::TooMany);
    assert_eq!(program.send_registers(&[]).unwrap_err(), Failure::TooMany);
    lose(0, 0);
    for request in requests {
        let refused = vec![Outcome::Refused(Refusal::EmptyRegister)];
        assert_eq!(request.wait().unwrap(), refused);
    }
    assert_eq!(
        program.send(&[word(0); EVENTS + 1]).unwrap_err(),
        Failure::BadArgument
    );
    assert_eq!(
        program.send_registers(&[0; EVENTS + 1]).unwrap_err(),
        Failure::BadArgument
    );
    assert_eq!(
        program.send_read_bytes(0, 0, 1_000_001).unwrap_err(),
        Failure::TooLong
    );
    assert_eq!(program.send(&[]).unwrap().wait().unwrap(), []);
    let read = program.send_read_bytes(0, 0, 1).unwrap().wait();
    assert_eq!(read.unwrap_err(), Failure::Refused(Refusal::EmptyRegister));
    let registers = program.send_registers(&[16]).unwrap().wait();
    assert_eq!(
        registers.unwrap_err(),
        Failure::Refused(Refusal::NoRegister)
    );
}

#[test]
fn bytes_and_letters_come() {
    let test = begin();
    let (zero, one) = (test.program(0), test.program(1));
    let bytes = b"a\0bc";
    let set = Step::SetBytes { object: 0, bytes };
    let post = Step::Post {
        to: 1,
        label: 9,
        first: 0,
        count: 1,
        bytes,
    };
    let waits = one.send_wait(KEPT).unwrap();
    assert_eq!(one.send_wait(KEPT).unwrap_err(), Failure::Unfinished);
    one.send(&[alloc(3)]).unwrap().wait().unwrap();
    let sent = zero.send(&[alloc(0), set, post]).unwrap();
    let read = zero.send_read_bytes(0, 1, 3).unwrap();
    assert_eq!(sent.wait().unwrap().len(), 3);
    assert_eq!(read.wait().unwrap(), (4, b"\0bc".to_vec()));
    assert_eq!(waits.wait().unwrap(), 1);
    let accept = Step::AcceptWithBytes {
        register: 0,
        room: 4,
    };
    let mut outcomes = one.send(&[word(3), accept]).unwrap().wait().unwrap();
    let Some(Outcome::Letter(letter, came)) = outcomes.pop() else {
        panic!("no letter: {outcomes:?}");
    };
    assert_eq!((letter.label, letter.reference), (9, Some(reference(0, 0))));
    assert_eq!(came, bytes);
    let late = one.send_wait(SHORT).unwrap();
    assert_eq!(run(&test, &one, late).unwrap_err(), Failure::TimedOut);
}

#[test]
fn a_request_that_failed_is_asked_for_again() {
    let test = begin();
    let mut program = test.program(0);
    program.one(alloc(0)).unwrap();
    assert_eq!(program.again().unwrap_err(), Failure::BadArgument);
    let before = unsafe { model_performed(0) };
    lose(0, MANY);
    program.set_timeout(SHORT);
    let late = program.send(&[set_word(0, 5)]).unwrap();
    assert_eq!(program.again().unwrap_err(), Failure::BadArgument);
    assert_eq!(late.wait().unwrap_err(), Failure::TimedOut);
    let behind = program.send(&[word(0)]).unwrap();
    assert_eq!(behind.wait().unwrap_err(), Failure::Unfinished);
    assert_eq!(
        program.perform(&[word(0)]).unwrap_err(),
        Failure::Unfinished
    );
    program.set_timeout(KEPT);
    lose(0, 0);
    assert_eq!(program.finish().unwrap().len(), 1);
    // The one behind it was performed, too; nobody has waited for it.
    let next = program.send(&[word(0)]).unwrap().wait().unwrap();
    assert_eq!(next, vec![Outcome::Done(Answer::Word(5))]);
    assert_eq!(unsafe { model_performed(0) }, before + 3);
    assert_eq!(program.finish().unwrap_err(), Failure::BadArgument);
    // A reading is over.
    lose(MANY, 0);
    program.set_timeout(SHORT);
    assert_eq!(
        program.send_registers(&[0]).unwrap().wait().unwrap_err(),
        Failure::TimedOut
    );
    assert_eq!(program.again().unwrap_err(), Failure::BadArgument);
    // Blocking calls, as before.
    assert_eq!(
        program.perform(&[set_word(0, 6)]).unwrap_err(),
        Failure::TimedOut
    );
    assert_eq!(program.finish().unwrap_err(), Failure::TimedOut);
    lose(0, 0);
    program.set_timeout(KEPT);
    assert_eq!(program.finish().unwrap().len(), 1);
    assert_eq!(program.one(word(0)).unwrap(), Answer::Word(6));
}

#[test]
fn a_request_that_was_dropped_is_performed() {
    let test = begin();
    let mut program = test.program(0);
    lose(1, 1);
    drop(program.send(&[alloc(0)]).unwrap());
    drop(program.send_wait(KEPT).unwrap());
    assert_eq!(program.send(&[word(0)]).unwrap().wait().unwrap().len(), 1);
    assert_eq!(program.registers(&[0]).unwrap(), [Some(reference(0, 0))]);
    // With requests under way, the program is closed.
    lose(MANY, 0);
    for _ in 0..3 {
        drop(program.send(&[word(0)]).unwrap());
    }
}

#[test]
fn another_process_takes_over() {
    let test = begin();
    let mut program = test.program(0);
    program.one(alloc(0)).unwrap();
    let mut other = test.program(0);
    assert_eq!(other.requests(), 1);
    assert_eq!(
        other.last().unwrap(),
        vec![Outcome::Done(Answer::New(reference(0, 0)))]
    );
    lose(1, 0);
    let requests = [
        program.send(&[word(0)]).unwrap(),
        program.send(&[word(0)]).unwrap(),
    ];
    for request in requests {
        assert_eq!(request.wait().unwrap_err(), Failure::Superseded);
    }
    assert_eq!(program.send(&[word(0)]).unwrap_err(), Failure::Superseded);
    assert_eq!(program.finish().unwrap_err(), Failure::Superseded);
    assert_eq!(other.one(word(0)).unwrap(), Answer::Word(0));
}

#[test]
fn threads_share_a_space() {
    let test = begin();
    let space = &test.space;
    std::thread::scope(|scope| {
        for number in 0..4 {
            let mut program = space.program(number % 2, 10 + number, KEPT).unwrap();
            scope.spawn(move || {
                for _ in 0..50 {
                    let register = number.into();
                    let mine = [
                        program.send(&[alloc(register)]),
                        program.send(&[word(register)]),
                    ];
                    for request in mine {
                        assert_eq!(request.unwrap().wait().unwrap().len(), 1);
                    }
                    program.one(word(register)).unwrap();
                }
            });
        }
    });
}

// Two cycles: what is garbage now is gone, and that is saved.
fn cycle(test: &Test) {
    let number = |node, name: &str| -> u64 {
        let text = test.space.ask(node, "status", KEPT).unwrap();
        let (_, behind) = text.split_once(&format!("\"{name}\": ")).unwrap();
        let end = behind.find(',').unwrap();
        behind[..end].parse().unwrap()
    };
    for _ in 0..2 {
        let before = number(0, "cycle");
        test.space.ask(0, "begin", KEPT).unwrap();
        while (0..2).any(|node| number(node, "swept") <= before) {}
    }
}

// Objects in registers from 0 on, with words from 10 on.
fn make(program: &mut Program<'_>, count: u16) -> Vec<Ref> {
    let one = |register: u16| {
        let outcomes = program.perform(&[
            alloc(register),
            set_word(register, 10 + u64::from(register)),
        ]);
        match outcomes.unwrap()[..] {
            [Outcome::Done(Answer::New(made)), Outcome::Done(_)] => made,
            ref other => panic!("{other:?}"),
        }
    };
    (0..count).map(one).collect()
}

fn lose_objects(test: &Test, program: &mut Program<'_>, registers: &[u16]) {
    for &register in registers {
        program.one(Event::Drop { register }).unwrap();
    }
    cycle(test);
}

#[test]
fn a_weak_reference_leads_back() {
    let test = begin();
    let mut program = test.program(0);
    let made = make(&mut program, 2);
    lose_objects(&test, &mut program, &[1]);
    program.resolve(2, made[0]).unwrap();
    assert_eq!(program.registers(&[2]).unwrap(), [Some(made[0])]);
    let no_field = Failure::Refused(Refusal::NoField);
    assert_eq!(program.resolve(3, made[1]).unwrap_err(), no_field);
    assert_eq!(program.upgrade(Weak::new(made[0]), 4), Ok(true));
    assert_eq!(program.upgrade(Weak::new(made[1]), 5), Ok(false));
    let far = Weak::new(reference(1, 0));
    let remote = Failure::Refused(Refusal::Remote);
    assert_eq!(program.upgrade(far, 5).unwrap_err(), remote);
    assert_eq!(
        program.registers(&[3, 4, 5]).unwrap(),
        [None, Some(made[0]), None]
    );
    // The answer is lost, and it is done once.
    lose(0, 1);
    let back = Event::Resolve {
        register: 4,
        reference: made[0],
    };
    let steps = [Event::Drop { register: 4 }.into(), Step::Event(back)];
    let sent = program.send(&steps).unwrap();
    let outcomes = run(&test, &program, sent).unwrap();
    assert_eq!(outcomes, vec![Outcome::Done(Answer::Done); 2]);
}

#[test]
fn objects_are_read() {
    let test = begin();
    let mut program = test.program(0);
    assert_eq!(program.objects().count(), 0);
    let made = make(&mut program, 5);
    let bytes = b"abc";
    program.one(Step::SetBytes { object: 1, bytes }).unwrap();
    let store = Event::Store {
        object: 1,
        place: 0,
        register: 2,
    };
    program.one(store).unwrap();
    let give = Event::Give {
        to: 1,
        label: 7,
        register: 3,
    };
    program.one(give).unwrap();
    lose_objects(&test, &mut program, &[4]);
    let all: Vec<_> = program.objects().map(|it| it.unwrap()).collect();
    let references: Vec<_> = all.iter().map(|it| it.reference).collect();
    assert_eq!(references, made[..4]);
    assert_eq!((all[1].word, all[1].places, all[1].bytes), (11, 1, 3));
    let shared: Vec<_> = all.iter().map(|it| it.is_shared).collect();
    assert_eq!(shared, [false, false, false, true]);
    // A few at a time.
    let (first, next) = program.send_objects(0, 3).unwrap().wait().unwrap();
    let (rest, over) = program
        .send_objects(next.unwrap(), 3)
        .unwrap()
        .wait()
        .unwrap();
    assert_eq!(([first, rest].concat(), over), (all, None));
    assert_eq!(program.places(made[1]).unwrap(), [Some(made[2])]);
    let gone = program.places(made[4]).unwrap_err();
    assert_eq!(gone, Failure::Refused(Refusal::NoField));
    lose(MANY, 0);
    program.set_timeout(SHORT);
    let late = program.objects().next().unwrap().unwrap_err();
    assert_eq!(late, Failure::TimedOut);
}

#[test]
fn what_was_freed_is_handed_out() {
    let test = begin();
    let mut program = test.program(0);
    let mut since = Since { list: 0, number: 0 };
    assert_eq!(program.freed(&mut since).unwrap_err(), Failure::Lost);
    let tracked = program.track_freed().unwrap();
    assert_eq!(program.track_freed().unwrap(), tracked);
    assert!(tracked.is_new);
    since = tracked.since;
    let made = make(&mut program, 3);
    lose_objects(&test, &mut program, &[1]);
    lose_objects(&test, &mut program, &[0]);
    let gone = [(1, 11), (0, 10)].map(|(at, word)| Gone {
        reference: made[at],
        word,
    });
    // An answer that doesn't come loses nothing.
    lose(0, MANY);
    program.set_timeout(SHORT);
    assert_eq!(program.freed(&mut since).unwrap_err(), Failure::TimedOut);
    assert_eq!(since, tracked.since);
    program.set_timeout(KEPT);
    lose(1, 1);
    assert_eq!(program.freed(&mut since).unwrap(), gone);
    assert_eq!(since.number, tracked.since.number + 2);
    since.number -= 1;
    assert_eq!(program.freed(&mut since).unwrap(), gone[1..]);
    assert_eq!(program.freed(&mut since).unwrap(), []);
    let is_new = false;
    assert_eq!(program.track_freed().unwrap(), Tracked { since, is_new });
    // Another process of the node has no list.
    assert_eq!(unsafe { model_restart(0) }, 0);
    assert_eq!(program.freed(&mut since).unwrap_err(), Failure::Lost);
    assert!(program.track_freed().unwrap().is_new);
}

#[test]
fn a_table_loses_what_was_freed() {
    let test = begin();
    let mut program = test.program(0);
    let (mut table, mut since) = (WeakTable::new(), None);
    let made = make(&mut program, 5);
    for (at, &object) in made.iter().enumerate() {
        table.insert(object, at);
    }
    assert_eq!(program.take_freed(&mut table, &mut since).unwrap(), []);
    lose_objects(&test, &mut program, &[2]);
    let gone = |at: usize, word| {
        let reference = made[at];
        (Gone { reference, word }, at)
    };
    let found = program.take_freed(&mut table, &mut since).unwrap();
    assert_eq!(found, [gone(2, 12)]);
    assert_eq!(program.take_freed(&mut table, &mut since).unwrap(), []);
    // The list is lost, and answers are.
    lose_objects(&test, &mut program, &[0]);
    assert_eq!(unsafe { model_restart(0) }, 0);
    lose(0, MANY);
    program.set_timeout(SHORT);
    let late = program.take_freed(&mut table, &mut since);
    assert_eq!(late.unwrap_err(), Failure::TimedOut);
    program.set_timeout(KEPT);
    lose(1, 2);
    let found = program.take_freed(&mut table, &mut since).unwrap();
    assert_eq!(found, [gone(0, 0)]);
    lose_objects(&test, &mut program, &[4]);
    let found = program.take_freed(&mut table, &mut since).unwrap();
    assert_eq!(found, [gone(4, 14)]);
    let kept: Vec<_> = table.iter().map(|(_, &at)| at).collect();
    assert_eq!(kept, [1, 3]);
}

#[test]
fn beside_a_program_apart_nothing_is_found() {
    let test = begin();
    let mut program = test.program(0);
    let made = make(&mut program, 1);
    let mut since = program.track_freed().unwrap().since;
    let apart = test.space.program_apart(0, 5, 8..16, KEPT).unwrap();
    assert_eq!(program.resolve(1, made[0]).unwrap_err(), Failure::Apart);
    assert_eq!(program.track_freed().unwrap_err(), Failure::Apart);
    assert_eq!(program.freed(&mut since).unwrap_err(), Failure::Apart);
    assert_eq!(program.places(made[0]).unwrap_err(), Failure::Apart);
    assert_eq!(
        program.objects().next().unwrap().unwrap_err(),
        Failure::Apart
    );
    let back = Step::Event(Event::Resolve {
        register: 1,
        reference: made[0],
    });
    assert_eq!(
        program.perform(&[back, word(0)]).unwrap(),
        [Outcome::Apart, Outcome::NotDone]
    );
    drop(apart);
    test.space.ask(0, "forget 5", KEPT).unwrap();
    program.resolve(1, made[0]).unwrap();
    assert_eq!(program.freed(&mut since).unwrap_err(), Failure::Lost);
}
