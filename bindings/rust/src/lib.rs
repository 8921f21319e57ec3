//! markring: a garbage-collected object heap over several nodes, with a machine-checked proof.
//!
//! A space has 2 to 64 nodes. Each node owns objects, and a program reaches them through the node's
//! registers. References travel between nodes in messages. The collector also frees rings of
//! objects over several nodes. `docs/RULES.md` of the repository has the rules.
//!
//! - [`Node`]: one node. The caller moves frames between nodes, over any network, and stores
//!   images.
//! - [`Events`]: what a node does.
//! - [`Roots`], [`Root`]: registers that are chosen and emptied automatically.
//! - [`Weak`], [`WeakTable`]: what keeps no object alive.
//! - [`Shape`]: how large a space is.
//! - `host`, with the feature `host`: a node in a folder, for a program that has its own loop and
//!   transport. `remote`, with the feature `remote`: programs of nodes in processes.
//! - [`Space`], [`Cell`], [`Watch`], with the feature `spaces`: the nodes of a space in threads of
//!   one process, which move frames in shared memory.
//!
//! The crate needs `libmarkring.a` or `libmarkring.so`. Its build script looks for them in the
//! folder that the variable `MARKRING_LIB_DIR` names. Without that variable, it asks pkg-config.
//!
//! # A ring over two nodes
//!
//! Two objects refer to each other. Once no program holds either, a cycle frees both:
//!
//! ```
//! use markring::{Events, Node, Result};
//!
//! // Does what the collector has to do at this node, saves it, and sends its frames to the other.
//! fn turn(node: &Node, own: u8, peer: &Node) -> Result<()> {
//!     let other = 1 - own;
//!     node.work(16, 16)?;
//!     let image = node.image()?;
//!     node.kept(image.mark)?;
//!     for frame in node.frames(other, 0)? {
//!         peer.take(&frame.bytes)?;
//!     }
//!     node.take(&peer.ack_for(own)?)?;
//!     Ok(())
//! }
//!
//! # fn main() -> Result<()> {
//! let nodes = [Node::new(2, 4, 16, 0)?, Node::new(2, 4, 16, 1)?];
//! let both = || {
//!     turn(&nodes[0], 0, &nodes[1])?;
//!     turn(&nodes[1], 1, &nodes[0])
//! };
//! // Each node makes an object, and sends its reference to the other one.
//! for own in [0, 1] {
//!     nodes[own as usize].alloc(0, 1)?;
//!     nodes[own as usize].give(1 - own, 7, 0)?;
//! }
//! both()?;
//! // Each object gets a reference to the other one, and the programs drop theirs.
//! for node in &nodes {
//!     node.accept(1)?;
//!     node.store(0, 0, 1)?;
//!     node.drop_register(0)?;
//!     node.drop_register(1)?;
//! }
//! // A cycle frees both.
//! nodes[0].begin()?;
//! while nodes.iter().any(|node| node.state().unwrap().live > 0) {
//!     both()?;
//! }
//! # Ok(())
//! # }
//! ```
#![no_std]

extern crate alloc;
#[cfg(feature = "std")]
extern crate std;

mod events;
mod ffi;
#[cfg(feature = "host")]
pub mod host;
mod node;
mod refusal;
#[cfg(feature = "remote")]
pub mod remote;
mod root;
#[cfg(feature = "spaces")]
mod space;
mod value;
mod weak;

pub use events::Events;
pub use node::Node;
pub use refusal::{Refusal, Result};
pub use root::{Accepted, Root, Roots};
#[cfg(feature = "spaces")]
pub use space::{collect, Cell, Space, Watch};
pub use value::{
    Age, Answer, Batch, Colour, Event, Frame, Freed, Gone, Image, Letter, Link, Object, Objects,
    Passed, Ref, Shape, State, Stopped, Taken, Work,
};
pub use weak::{Weak, WeakTable};
