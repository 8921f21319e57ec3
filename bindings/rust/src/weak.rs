//! References that keep nothing alive, and tables whose entries go with their objects.
use crate::{Events, Gone, Ref, Refusal, Result};
use alloc::collections::{btree_map, BTreeMap, BTreeSet};
use alloc::vec::Vec;

/// A weak reference to an object of a node.
///
/// ```
/// use markring::{Events, Node, Shape, Weak};
///
/// # fn main() -> markring::Result<()> {
/// let node = Node::with_shape(Shape::wide(2, 4, 16, 1, 0), 0, 0)?;
/// let weak = Weak::new(node.alloc(0, 0)?);
/// node.drop_register(0)?;
/// assert!(weak.upgrade(&node, 1)?); // register 1 has it
///
/// node.drop_register(1)?;
/// node.reclaim()?;
/// assert!(!weak.upgrade(&node, 1)?); // it is gone
/// # Ok(())
/// # }
/// ```
#[derive(Clone, Copy, Debug, PartialEq, Eq, Hash, PartialOrd, Ord)]
pub struct Weak(Ref);

impl Weak {
    /// A weak reference to the object that this reference names.
    pub const fn new(reference: Ref) -> Self {
        Weak(reference)
    }

    /// The reference.
    pub const fn reference(self) -> Ref {
        self.0
    }

    /// The register gets a reference to the object. Returns false, and leaves the register as it
    /// is, if the object is gone, or the next sweep frees it.
    ///
    /// # Errors
    ///
    /// Those of [`Events::resolve`] but `NoField`: `NoRegister`, `Remote`; `NotNow` if the node
    /// marks and hasn't reached the object.
    pub fn upgrade(self, node: &impl Events, register: u16) -> Result<bool> {
        match node.resolve(register, self.0) {
            Ok(()) => Ok(true),
            Err(Refusal::NoField) => Ok(false),
            Err(refusal) => Err(refusal),
        }
    }
}

/// A table of what a program has for each of some objects of a node, such as an open file. Its
/// entries go with the objects, which it doesn't keep alive.
///
/// ```
/// use markring::{Events, Node, Shape, WeakTable};
///
/// # fn main() -> markring::Result<()> {
/// let node = Node::with_shape(Shape::wide(2, 4, 16, 1, 0), 0, 0)?;
/// let mut table = WeakTable::of(&node)?;
/// table.insert(node.alloc(0, 0)?, "what goes with the object");
/// node.drop_register(0)?;
/// node.reclaim()?;
/// assert!(table.take_freed(&node)?.is_empty()); // a restart could bring the object back
///
/// let image = node.image()?; // and store it
/// node.kept(image.mark)?;
/// for (object, value) in table.take_freed(&node)? {
///     println!("{}: {value}", object.reference);
/// }
/// assert!(table.is_empty());
/// # Ok(())
/// # }
/// ```
#[derive(Clone, Debug, PartialEq, Eq)]
pub struct WeakTable<V> {
    entries: BTreeMap<Ref, V>,
}

impl<V> Default for WeakTable<V> {
    fn default() -> Self {
        WeakTable {
            entries: BTreeMap::new(),
        }
    }
}

impl<V> WeakTable<V> {
    /// An empty table, for objects of a node in a process: see `Program::take_freed` of the module
    /// `remote`.
    #[must_use]
    pub fn new() -> Self {
        WeakTable::default()
    }

    /// An empty table for objects of this node or cell, which from now on lists what is freed.
    ///
    /// # Errors
    ///
    /// Those of [`Events::track_freed`].
    pub fn of(node: &impl Events) -> Result<Self> {
        node.track_freed(true)?;
        Ok(WeakTable::new())
    }

    // Removes the entries of these objects.
    pub(crate) fn leave(&mut self, gone: Vec<Gone>) -> Vec<(Gone, V)> {
        gone.into_iter()
            .filter_map(|it| Some((it, self.entries.remove(&it.reference)?)))
            .collect()
    }

    // Removes the entries of all other objects.
    pub(crate) fn leave_missing(&mut self, live: &BTreeSet<Ref>) -> Vec<(Ref, V)> {
        let missing: Vec<Ref> = self
            .entries
            .keys()
            .copied()
            .filter(|it| !live.contains(it))
            .collect();
        let found = missing
            .into_iter()
            .filter_map(|it| Some((it, self.entries.remove(&it)?)));
        found.collect()
    }

    /// Adds an entry for an object, and returns what it had before.
    pub fn insert(&mut self, object: Ref, value: V) -> Option<V> {
        self.entries.insert(object, value)
    }

    /// What the object has.
    pub fn get(&self, object: Ref) -> Option<&V> {
        self.entries.get(&object)
    }

    /// The same, to be changed.
    pub fn get_mut(&mut self, object: Ref) -> Option<&mut V> {
        self.entries.get_mut(&object)
    }

    /// Removes the entry of an object.
    pub fn remove(&mut self, object: Ref) -> Option<V> {
        self.entries.remove(&object)
    }

    /// How many entries there are.
    pub fn len(&self) -> usize {
        self.entries.len()
    }

    /// Whether it has no entry.
    pub fn is_empty(&self) -> bool {
        self.entries.is_empty()
    }

    /// The entries, by node, slot and generation.
    pub fn iter(&self) -> btree_map::Iter<'_, Ref, V> {
        self.entries.iter()
    }

    /// Removes the entries of the objects that [`Events::freed`] returns, and returns them in this
    /// order. Call it after each save. (Another table of the node wouldn't hear of them.)
    ///
    /// # Errors
    ///
    /// Those of [`Events::freed`].
    pub fn take_freed(&mut self, node: &impl Events) -> Result<Vec<(Gone, V)>> {
        Ok(self.leave(node.freed()?))
    }

    /// Removes the entries of the objects that the node doesn't have, and returns them. For a table
    /// that outlived a crash, or a cell's [`reopen`](crate::Cell::reopen): the list of what was freed
    /// begins with the node that was opened.
    ///
    /// # Errors
    ///
    /// Those of [`Events::objects`].
    pub fn take_missing(&mut self, node: &impl Events) -> Result<Vec<(Ref, V)>> {
        let mut live = BTreeSet::new();
        for object in node.objects()? {
            live.insert(object?.reference);
        }
        Ok(self.leave_missing(&live))
    }
}
