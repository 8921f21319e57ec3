//! Two objects on two nodes refer to each other. Once no program holds either, a cycle frees both:
//! `cargo run --example ring`.

use markring::{Events, Node, Result};

// Does what the collector has to do at a node, saves the node, and moves its frames to the other.
fn turn(nodes: &[Node; 2], own: u8) -> Result<()> {
    let (node, other) = (&nodes[usize::from(own)], 1 - own);
    let peer = &nodes[usize::from(other)];
    if let Some(freed @ 1..) = node.work(16, 16)?.freed {
        println!("node {own} freed {freed}");
    }
    let image = node.image()?;
    // A real program stores `image.bytes` here.
    node.kept(image.mark)?;
    for frame in node.frames(other, 0)? {
        peer.take(&frame.bytes)?;
    }
    node.take(&peer.ack_for(own)?)?;
    Ok(())
}

fn main() -> Result<()> {
    // Two nodes, each with 4 registers and 16 slots.
    let nodes = [Node::new(2, 4, 16, 0)?, Node::new(2, 4, 16, 1)?];
    // Each makes an object with one place, and sends its reference to the other node.
    for own in [0, 1] {
        nodes[usize::from(own)].alloc(0, 1)?;
        nodes[usize::from(own)].give(1 - own, 7, 0)?;
        turn(&nodes, own)?;
    }
    // Each puts what came into the place of its object, and drops both.
    for node in &nodes {
        node.accept(1)?;
        node.store(0, 0, 1)?;
        node.drop_register(0)?;
        node.drop_register(1)?;
    }
    nodes[0].begin()?;
    while nodes[0].state()?.live + nodes[1].state()?.live > 0 {
        turn(&nodes, 0)?;
        turn(&nodes, 1)?;
    }
    println!("none is left");
    Ok(())
}
