//! Nodes in threads, with cycles of the collector while they work.

use markring::{
    collect, Cell, Events, Refusal, Result, Roots, Shape, Space, Taken, Watch, WeakTable,
};
use std::sync::atomic::{AtomicBool, AtomicU8, Ordering};
use std::thread;

const NODES: u8 = 3;
const ROUNDS: u32 = 200;

// One round of what a thread does with its cell besides its program. Returns whether there was
// anything to do.
fn turn(cell: &Cell, own: u8) -> Result<bool> {
    let mut busy = false;
    for from in (0..NODES).filter(|it| *it != own) {
        busy |= matches!(cell.receive(from)?, Some(Taken::Received | Taken::Early));
    }
    let work = cell.work(64, 64)?;
    busy |= work.scanned > 0 || work.passed || work.freed.is_some();
    if cell.unsaved()? {
        let image = cell.image()?;
        cell.save(image.mark)?;
        busy = true;
    }
    for to in (0..NODES).filter(|it| *it != own) {
        cell.send(to)?;
    }
    if own == 0 {
        cell.raise()?;
    }
    Ok(busy)
}

// Passes a letter around the ring of nodes, with a new object in it each time.
fn program(cell: &Cell, own: u8, left: &AtomicU8, quit: &AtomicBool) -> Result<()> {
    let roots = Roots::new(cell, 0..8);
    let next = (own + 1) % NODES;
    if own == 0 {
        roots.alloc(1)?.give(next, 1)?;
    }
    let mut rounds = 0;
    while !quit.load(Ordering::SeqCst) {
        if !turn(cell, own)? {
            thread::yield_now();
        }
        if own == 0 {
            match cell.begin() {
                Ok(_) | Err(Refusal::CycleRunning) => {}
                Err(refusal) => return Err(refusal),
            }
        }
        let Some(letter) = roots.accept()? else {
            continue;
        };
        assert_eq!(u32::from(letter.from), (u32::from(own) + 2) % 3);
        rounds += 1;
        assert_eq!(letter.label, rounds);
        if rounds == ROUNDS {
            left.fetch_sub(1, Ordering::SeqCst);
        }
        if own == 0 && rounds == ROUNDS {
            continue;
        }
        let object = roots.alloc(1)?;
        if let Some(old) = &letter.root {
            object.store(0, old)?;
        }
        object.give(next, letter.label + u32::from(own == 0))?;
    }
    Ok(())
}

// Collects, after which the nodes have no objects left.
fn clean(cells: &[Cell]) -> Result<()> {
    let mut stored = 0;
    collect(cells, |node, image| {
        assert!(node < NODES && !image.is_empty());
        stored += 1;
        Ok::<(), Refusal>(())
    })?;
    assert!(stored >= cells.len());
    for cell in cells {
        assert_eq!((cell.state()?.live, cell.unsaved()?), (0, false));
    }
    Ok(())
}

fn open() -> Result<(Vec<Cell>, Watch)> {
    let space = Space::new(NODES, 8, 4_096, 1)?;
    space.open()?;
    assert_eq!(space.open(), Err(Refusal::InUse));
    let watch = space.watch()?.expect("the space has a watch");
    assert!(space.watch()?.is_none());
    let cells = space.cells()?;
    assert!(space.cell(0)?.is_none());
    assert_eq!(space.cell(NODES).err(), Some(Refusal::NoNode));
    Ok((cells, watch))
}

#[test]
fn letters_go_around_while_cycles_run() -> Result<()> {
    let (cells, watch) = open()?;
    let (left, quit) = (AtomicU8::new(NODES), AtomicBool::new(false));
    let cells: Vec<Cell> = thread::scope(|scope| {
        let threads: Vec<_> = (0..)
            .zip(cells)
            .map(|(own, cell): (u8, Cell)| {
                let (left, quit) = (&left, &quit);
                scope.spawn(move || {
                    program(&cell, own, left, quit).unwrap();
                    cell
                })
            })
            .collect();
        while left.load(Ordering::SeqCst) > 0 {
            thread::yield_now();
        }
        quit.store(true, Ordering::SeqCst);
        threads.into_iter().map(|it| it.join().unwrap()).collect()
    });
    clean(&cells)?;
    assert!(cells[0].raise()? > 0);
    assert!(watch.look()? > 0);
    Ok(())
}

#[test]
fn a_space_continues_from_its_images() -> Result<()> {
    let (cells, _watch) = open()?;
    cells[0].alloc(3, 1)?;
    cells[0].set_word(3, 42)?;
    let mut images = Vec::new();
    for cell in &cells {
        let image = cell.image()?;
        cell.save(image.mark)?;
        images.push(image);
    }
    // What isn't saved is lost.
    cells[0].set_word(3, 43)?;
    assert_eq!(cells[0].save(images[0].mark), Err(Refusal::WrongMark));
    cells[0].reopen()?;
    assert_eq!(cells[0].word(3)?, 42);

    let space = Space::new(NODES, 8, 4_096, 0)?;
    for (node, image) in (0..).zip(&images) {
        space.disk(node, &image.bytes)?;
    }
    space.disk(1, &images[2].bytes)?;
    assert_eq!(space.open(), Err(Refusal::WrongDisks));
    space.disk(1, &images[1].bytes[1..])?;
    assert_eq!(space.open(), Err(Refusal::BadImage));
    // Node 1 receives a letter that the stored image of node 0 hasn't sent.
    cells[0].give(1, 1, 3)?;
    cells[0].save(cells[0].image()?.mark)?;
    assert!(cells[0].send(1)?);
    assert_eq!(cells[1].receive(0)?, Some(Taken::Received));
    space.disk(1, &cells[1].image()?.bytes)?;
    assert_eq!(space.open(), Err(Refusal::Ages));
    assert_eq!(space.apart(), Some((0, 1)));
    space.disk(1, &images[1].bytes)?;
    space.open()?;
    assert_eq!(space.apart(), None);
    let cell = space.cell(0)?.expect("the space is open");
    assert_eq!(cell.word(3)?, 42);
    Ok(())
}

#[test]
fn a_wide_space_opens_on_its_images() -> Result<()> {
    let shape = Shape::wide(2, 300, 2_000_000, 20, 0);
    let small = Space::with_shape(Shape::wide(2, 0, 1, 20, 0), 0);
    assert_eq!(small.err(), Some(Refusal::BadArgument));
    let space = Space::with_shape(shape, 0)?;
    space.open()?;
    let cells = space.cells()?;
    let object = cells[0].alloc(299, 20)?;
    cells[0].store(299, 19, 299)?;
    let images = [cells[0].image()?.bytes, cells[1].image()?.bytes];
    let opened = |shape| {
        let space = Space::with_shape(shape, 0)?;
        space.disk(0, &images[0])?;
        space.disk(1, &images[1])?;
        space.open()?;
        space.cells()
    };
    let again = opened(shape)?;
    let objects = again[0].objects()?.collect::<Result<Vec<_>>>()?;
    assert_eq!((objects.len(), objects[0].reference), (1, object));
    assert_eq!((again[0].slots()?, again[1].slots()?), (1, 0));
    assert_eq!(again[0].place(0, 19)?, Some(object));
    assert_eq!(again[0].place(0, 20), Err(Refusal::NoField));
    assert_eq!(
        again[0].read_bytes_at(0, 0, &mut [0]),
        Err(Refusal::NoBytes)
    );
    assert_eq!(again[0].load(0, 299, 19)?, Some(object));
    let state = again[1].state()?;
    assert_eq!((state.places, state.is_wide), (20, true));
    let other = opened(Shape::wide(2, 300, 2_000_000, 21, 0));
    assert_eq!(other.err(), Some(Refusal::WrongDisks));
    Ok(())
}

#[test]
fn a_table_of_a_cell_hears_of_what_no_save_has() -> Result<()> {
    let space = Space::with_shape(Shape::wide(2, 4, 64, 1, 0), 0)?;
    space.open()?;
    let cell = space.cell(0)?.expect("it wasn't moved out");
    let mut table = WeakTable::of(&cell)?;
    let lost = cell.alloc(0, 0)?;
    cell.set_word(0, 7)?;
    table.insert(lost, "seven");
    let kept = cell.alloc(0, 0)?;
    table.insert(kept, "kept");
    cell.save(cell.image()?.mark)?;

    // A reopening brings it back, and drops the list.
    assert_eq!(cell.reclaim()?, 1);
    assert!(table.take_freed(&cell)?.is_empty());
    cell.reopen()?;
    cell.save(cell.image()?.mark)?;
    assert!(table.take_freed(&cell)?.is_empty());
    assert!(table.take_missing(&cell)?.is_empty());

    assert_eq!(cell.reclaim()?, 1);
    assert!(table.take_freed(&cell)?.is_empty());
    cell.save(cell.image()?.mark)?;
    let gone = table.take_freed(&cell)?;
    assert_eq!(gone.len(), 1);
    assert_eq!(
        (gone[0].0.reference, gone[0].0.word, gone[0].1),
        (lost, 7, "seven")
    );
    assert_eq!(table.iter().collect::<Vec<_>>(), [(&kept, &"kept")]);
    cell.track_freed(false)?;
    Ok(())
}
