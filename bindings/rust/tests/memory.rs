//! What only a lack of memory causes: `Memory`, a cell's `Disk`, and what is `Closed` after it. This
//! program has one test, since it limits the memory of its process.

use markring::{Cell, Event, Events, Node, Ref, Refusal, Result, Roots, Shape, Space};
use std::fs;

const RESOURCE: i32 = 9; // RLIMIT_AS
const BYTES: usize = 16_777_216;
const SHAPE: Shape = Shape::wide(2, 4, 16, 1, BYTES as u32);

extern "C" {
    fn setrlimit(resource: i32, limits: *const [u64; 2]) -> i32;
}

fn limit(bytes: u64) {
    // SAFETY: the two numbers are a `struct rlimit`.
    assert_eq!(unsafe { setrlimit(RESOURCE, &[bytes, u64::MAX]) }, 0);
}

// How many bytes of addresses the process has.
fn size() -> u64 {
    let statm = fs::read_to_string("/proc/self/statm").unwrap();
    let pages: u64 = statm.split(' ').next().unwrap().parse().unwrap();
    pages * 4_096
}

// Calls while the process gets this many bytes from the system, and the allocator has no large
// block left.
fn with_room<T>(room: usize, call: impl FnOnce() -> T) -> T {
    let mut fillers: Vec<Vec<u8>> = Vec::with_capacity(1_000);
    limit(size() + 0x40_000);
    loop {
        let mut filler = Vec::new();
        if filler.try_reserve_exact(BYTES / 16).is_err() {
            break;
        }
        fillers.push(filler);
    }
    limit(size() + room as u64);
    let result = call();
    limit(u64::MAX);
    result
}

fn without_memory<T>(call: impl FnOnce() -> T) -> T {
    with_room(0, call)
}

fn large(node: &impl Events) -> Result<()> {
    node.alloc(0, 1)?;
    node.set_bytes(0, &vec![7; BYTES])
}

fn refused(node: &impl Events) -> Result<()> {
    let bytes = vec![8; BYTES];
    node.alloc(1, 0)?;
    let all = without_memory(|| [node.set_bytes(1, &bytes).err(), node.bytes(0).err()]);
    assert_eq!(all, [Some(Refusal::Memory); 2]);
    assert_eq!((node.bytes_len(0)?, node.bytes_len(1)?), (BYTES as u32, 0));
    Ok(())
}

const FIRST: Ref = Ref {
    node: 0,
    slot: 0,
    generation: 1,
};

fn closed(cell: &Cell) -> [Option<Refusal>; 31] {
    [
        cell.alloc(1, 0).err(),
        cell.copy(1, 0).err(),
        cell.drop_register(0).err(),
        cell.load(1, 0, 0).err(),
        cell.store(0, 0, 0).err(),
        cell.clear(0, 0).err(),
        cell.word(0).err(),
        cell.set_word(0, 1).err(),
        cell.set_bytes(0, &[]).err(),
        cell.patch(0, 0, &[]).err(),
        cell.give(1, 1, 0).err(),
        cell.accept(0).err(),
        cell.put(0, 0, 0).err(),
        cell.get(0, 0, 0).err(),
        cell.post(1, 1, 0, 0, &[]).err(),
        cell.fetch(0, 0, 0, 0).err(),
        cell.resolve(0, FIRST).err(),
        cell.reclaim().err(),
        cell.reclaim_young().err(),
        cell.begin().err(),
        cell.scan().err(),
        cell.pass().err(),
        cell.sweep(1).err(),
        cell.next(1).err(),
        cell.work(0, 0).map_err(Refusal::from).err(),
        cell.act(Event::Scan).err(),
        cell.receive(1).err(),
        cell.send(1).err(),
        cell.save(1).err(),
        cell.raise().err(),
        Roots::new(cell, 1..3).alloc(0).err(),
    ]
}

fn cells() -> Result<Vec<Cell>> {
    let space = Space::with_shape(SHAPE, 0)?;
    space.open()?;
    space.cells()
}

#[test]
fn without_memory_calls_are_refused() -> Result<()> {
    let node = Node::with_shape(SHAPE, 0, 0)?;
    large(&node)?;
    refused(&node)?;
    let image = node.image()?.bytes;
    let made = without_memory(|| [node.image().err(), Node::from_image(&image, 0).err()]);
    assert_eq!(made, [Some(Refusal::Memory); 2]);

    let cell = cells()?.remove(0);
    cell.alloc(0, 1)?;
    cell.set_word(0, 5)?;
    let roots = Roots::new(&cell, 2..4);
    let saved_root = roots.alloc(0)?;
    cell.save(cell.image()?.mark)?;
    let lost_root = roots.alloc(0)?;
    cell.set_word(0, 6)?;
    cell.set_bytes(0, &vec![7; BYTES])?;
    refused(&cell)?;
    let mark = cell.image()?.mark;
    // With the least room that the image needs, the disk in memory has too little.
    let saved = |room: usize| with_room(room * BYTES / 4, || cell.save(mark));
    let first = (0..40).map(saved).find(|it| *it != Err(Refusal::Memory));
    assert_eq!(first, Some(Err(Refusal::Disk)));
    assert_eq!(closed(&cell), [Some(Refusal::Closed); 31]);
    // Registers that can't be emptied now are emptied before they are used again.
    drop((saved_root, lost_root));
    assert_eq!(roots.alloc(0).err(), Some(Refusal::Closed));
    assert_eq!(roots.free(), 2);
    cell.reopen()?;
    assert_eq!(
        (cell.register(2)?.is_some(), cell.register(3)?),
        (true, None)
    );
    let _both = [roots.alloc(0)?, roots.alloc(0)?];
    assert_eq!((roots.free(), cell.state()?.live), (0, 4));
    assert_eq!((cell.word(0)?, cell.bytes_len(0)?), (5, 0));
    Ok(())
}
