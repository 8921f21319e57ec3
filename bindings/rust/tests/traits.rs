//! Which types two threads may share, which may move to another thread, and which can be copied.

use markring::{Accepted, Age, Answer, Batch, Cell, Colour, Event, Frame, Freed, Image, Letter};
use markring::{
    Link, Node, Object, Objects, Passed, Ref, Refusal, Root, Roots, Shape, Space, State,
};
use markring::{Stopped, Taken, Watch, Work};

// Whether the type has the trait: the constant of the type itself hides that of the trait.
macro_rules! has {
    ($type:ty, $trait:path) => {{
        struct Probe<T>(std::marker::PhantomData<T>);
        #[allow(dead_code)]
        trait Otherwise {
            const HAS: bool = false;
        }
        impl<T> Otherwise for Probe<T> {}
        #[allow(dead_code)]
        impl<T: $trait> Probe<T> {
            const HAS: bool = true;
        }
        Probe::<$type>::HAS
    }};
}

// The first letters of those of Send, Sync, Clone and Copy that the type has.
macro_rules! traits {
    ($($type:ty),* $(,)?) => {
        [$((stringify!($type), [
            has!($type, Send).then_some("send"),
            has!($type, Sync).then_some("sync"),
            has!($type, Clone).then_some("clone"),
            has!($type, Copy).then_some("copy"),
        ].into_iter().flatten().collect::<Vec<_>>().join(" "))),*]
    };
}

fn all_are(expected: &str, found: &[(&str, String)]) {
    for (name, traits) in found {
        assert_eq!((*name, traits.as_str()), (*name, expected));
    }
}

#[test]
fn a_probe_sees_traits_that_the_language_documents() {
    all_are("send sync clone copy", &traits![u8]);
    all_are("send clone", &traits![std::cell::RefCell<u8>]);
    all_are("clone", &traits![std::rc::Rc<u8>]);
    all_are("sync", &traits![std::sync::MutexGuard<'static, u8>]);
}

#[test]
fn handles_move_to_threads_but_are_not_shared() {
    all_are("send", &traits![Node, Space, Cell, Watch]);
}

#[test]
fn what_borrows_a_handle_stays_in_its_thread() {
    all_are(
        "",
        &traits![
            Roots<'static, Node>,
            Root<'static, Node>,
            Accepted<'static, Node>,
            Objects<'static, Node>,
            Roots<'static, Cell>,
            Root<'static, Cell>,
            Accepted<'static, Cell>,
            Objects<'static, Cell>,
        ],
    );
}

#[test]
fn values_are_copied() {
    all_are(
        "send sync clone copy",
        &traits![Ref, Colour, Letter, Freed, Passed, Taken, Event, Work, Stopped],
    );
    all_are(
        "send sync clone copy",
        &traits![Answer, Shape, State, Link, Age, Object, Refusal],
    );
}

#[test]
fn what_has_many_bytes_is_cloned() {
    all_are("send sync clone", &traits![Image, Batch, Frame]);
}

#[test]
fn a_refusal_is_an_error() {
    assert!(has!(Refusal, std::error::Error));
}
