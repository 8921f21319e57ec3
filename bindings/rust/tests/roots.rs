//! Roots: registers that are emptied automatically.

use markring::{Events, Node, Refusal, Result, Roots, Shape};

#[test]
fn a_dropped_root_empties_its_register() -> Result<()> {
    let node = Node::new(2, 8, 16, 0)?;
    let roots = Roots::new(&node, 2..5);
    {
        let object = roots.alloc(1)?;
        assert_eq!(object.register(), 2);
        assert_eq!(node.register(2)?, Some(object.reference()));
        let second = object.duplicate()?;
        assert_eq!(second.reference(), object.reference());
        assert_eq!(roots.free(), 1);
        second.store(0, &object)?;
        let third = object.load(0)?.expect("the place was filled");
        assert_eq!(third.reference(), object.reference());
        assert_eq!(object.load(0).unwrap_err(), Refusal::NoRegister);
        drop(third);
        object.clear(0)?;
        assert!(object.load(0)?.is_none());
    }
    assert_eq!(roots.free(), 3);
    for register in 0..8 {
        assert_eq!(node.register(register)?, None);
    }
    Ok(())
}

#[test]
fn a_reference_that_was_kept_becomes_a_root_again() -> Result<()> {
    let node = Node::with_shape(Shape::wide(2, 4, 16, 0, 0), 0, 0)?;
    let roots = Roots::new(&node, 0..4);
    let object = roots.alloc(0)?;
    object.set_word(7)?;
    let kept = object.reference();
    drop(object);
    let again = roots.resolve(kept)?;
    assert_eq!((again.reference(), again.word()?), (kept, 7));
    assert_eq!(roots.free(), 3);
    drop(again);
    node.reclaim()?;
    assert_eq!(roots.resolve(kept).unwrap_err(), Refusal::NoField);
    assert_eq!(roots.free(), 4);
    Ok(())
}

#[test]
fn what_is_refused_takes_no_register() -> Result<()> {
    let node = Node::new(2, 4, 1, 0)?;
    let roots = Roots::new(&node, 0..4);
    assert_eq!(roots.alloc(9).unwrap_err(), Refusal::TooManyFields);
    let _object = roots.alloc(0)?;
    assert_eq!(roots.alloc(0).unwrap_err(), Refusal::ArenaFull);
    assert!(roots.accept()?.is_none());
    assert_eq!(roots.give_nothing(0, 1), Err(Refusal::SelfSend));
    assert_eq!(roots.free(), 3);
    Ok(())
}

#[test]
fn roots_reach_objects_of_other_nodes() -> Result<()> {
    let nodes = [Node::new(2, 4, 16, 0)?, Node::new(2, 4, 16, 1)?];
    let flush = |from: usize, to: usize| -> Result<()> {
        let image = nodes[from].image()?;
        nodes[from].kept(image.mark)?;
        for frame in nodes[from].frames(to as u8, 0)? {
            nodes[to].take(&frame.bytes)?;
        }
        Ok(())
    };
    let here = Roots::new(&nodes[0], 0..4);
    let there = Roots::new(&nodes[1], 0..4);
    let object = here.alloc(2)?;
    object.set_word(5)?;
    object.give(1, 3)?;
    flush(0, 1)?;
    let letter = there.accept()?.expect("a letter was sent");
    assert_eq!((letter.from, letter.label), (0, 3));
    let far = letter.root.expect("the letter has a reference");
    assert_eq!(far.reference(), object.reference());
    assert_eq!(far.word(), Err(Refusal::Remote));
    let mine = there.alloc(0)?;
    far.put(0, Some(&mine))?;
    far.put(1, Some(&mine))?;
    assert_eq!(there.free(), 2);
    assert_eq!(far.put(1, None)?, 3);
    assert_eq!(there.free(), 2);
    assert_eq!(far.get(1, 6)?, 4);
    far.get(0, 8)?;
    flush(1, 0)?;
    let stored = object.load(0)?.expect("node 1 put a reference there");
    assert_eq!(stored.reference(), mine.reference());
    assert!(object.load(1)?.is_none());
    flush(0, 1)?;
    let empty = there.accept()?.expect("the answer to the first Get");
    assert_eq!((empty.label, empty.root.is_none()), (6, true));
    let answer = there.accept()?.expect("the answer to the Get");
    assert_eq!(answer.label, 8);
    assert_eq!(
        answer.root.map(|root| root.reference()),
        Some(mine.reference())
    );
    Ok(())
}

// A letter's references go into registers that no root uses, and that follow each other.
#[test]
fn roots_get_all_references_of_a_letter() -> Result<()> {
    let shape = Shape::wide(2, 8, 16, 4, 20);
    let nodes = [
        Node::with_shape(shape, 0, 0)?,
        Node::with_shape(shape, 1, 0)?,
    ];
    let flush = || -> Result<()> {
        nodes[0].release()?;
        for frame in nodes[0].frames(1, 0)? {
            nodes[1].take(&frame.bytes)?;
        }
        nodes[1].release()?;
        nodes[0].take(&nodes[1].ack_for(0)?).map(drop)
    };
    let (here, there) = (Roots::new(&nodes[0], 0..8), Roots::new(&nodes[1], 0..8));
    let objects = [here.alloc(0)?, here.alloc(0)?];
    let [one, two] = [&objects[0], &objects[1]];
    assert_eq!(here.post(1, 7, &[Some(two), None, Some(one)], b"text")?, 1);
    assert_eq!(here.post(1, 8, &[], b"")?, 2);
    assert_eq!(here.post(1, 9, &[Some(one)], b"")?, 3);
    assert_eq!(here.free(), 6);
    let refused = here.post(1, 7, &[Some(one), None, None, None, None], b"");
    assert_eq!((refused, here.free()), (Err(Refusal::TooManyFields), 6));
    let refused = here.post(1, 7, &[None; 7], b"");
    assert_eq!(refused, Err(Refusal::NoRegister));
    flush()?;
    // Of the registers 0 to 5 only 1, 3 and 5 are free, and then the last two.
    let mut roots: Vec<_> = (0..6).map(|_| there.alloc(0)).collect::<Result<_>>()?;
    for at in [5, 3, 1] {
        drop(roots.remove(at));
    }
    let letter = there.accept()?.expect("a letter was sent");
    assert_eq!((letter.from, letter.label), (0, 7));
    assert_eq!(letter.bytes, b"text");
    let first = letter.root.as_ref().expect("the first is a reference");
    assert_eq!((first.register(), first.reference()), (5, two.reference()));
    let more: Vec<_> = letter
        .more
        .iter()
        .map(|it| it.as_ref().map(|it| it.reference()))
        .collect();
    assert_eq!(more, [None, Some(one.reference())]);
    assert_eq!(there.free(), 3);
    for (root, register) in roots.iter().zip([0, 2, 4]) {
        assert_eq!(nodes[1].register(register)?, Some(root.reference()));
    }
    drop(letter);
    assert_eq!(there.free(), 5);
    let empty = there.accept()?.expect("a letter was sent");
    assert!(empty.label == 8 && empty.root.is_none() && empty.more.is_empty());
    assert!(empty.bytes.is_empty());
    let far = there
        .accept()?
        .expect("a letter was sent")
        .root
        .expect("it has one");
    assert_eq!(far.fetch(7, 0, 0)?, 1);
    assert!(there.accept()?.is_none());
    // With three free registers, no two of which follow each other, the letter stays.
    here.post(1, 10, &[Some(one), Some(two)], b"")?;
    flush()?;
    drop(far);
    let _more: Vec<_> = (0..8)
        .map(|_| there.alloc(0))
        .take_while(Result::is_ok)
        .collect::<Result<_>>()?;
    drop(roots.remove(0));
    drop(roots.remove(0));
    assert_eq!(there.free(), 2);
    assert_eq!(there.accept().err(), Some(Refusal::NoRegister));
    assert_eq!((there.free(), nodes[1].letter()?.label), (2, 10));
    Ok(())
}

#[test]
fn a_root_uses_its_own_register() -> Result<()> {
    let shape = Shape::wide(2, 8, 16, 2, 10);
    let node = Node::with_shape(shape, 0, 0)?;
    let roots = Roots::new(&node, 0..8);
    let (_first, root) = (roots.alloc(2)?, roots.alloc(2)?);
    root.set_word(77)?;
    root.set_bytes(b"0123")?;
    root.patch(2, b"x")?;
    assert_eq!((root.word()?, root.bytes()?), (77, b"01x3".to_vec()));
    assert_eq!((node.word(0)?, node.bytes(0)?), (0, Vec::new()));
    assert_eq!((node.word(1)?, node.bytes(1)?), (77, b"01x3".to_vec()));
    root.store(1, &root)?;
    assert_eq!(
        (node.place(1, 1)?, node.place(1, 0)?),
        (node.register(1)?, None)
    );
    assert_eq!(roots.give_nothing(1, 7)?, 1);
    assert!(root.load(0)?.is_none());
    assert_eq!(roots.free(), 6);
    assert_eq!(roots.node().state()?, node.state()?);
    Ok(())
}
