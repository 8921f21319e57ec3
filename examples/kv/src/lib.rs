//! A key-value store in a folder. Keys and values are bytes of objects of a wide node, and each
//! change is durable before it is answered. What was deleted never left the node, so the node
//! reclaims it alone: the space's other node is never made.
//!
//! Register 0 has the root, whose places have tables. A place of a table begins a chain of entries.
//! An entry has its key as its bytes, and two places: the next entry, and the value.

mod file;

use file::{hash, NodeFile};
use markring::{Events, Node, Refusal, Shape};
use std::fs::{self, File};
use std::path::Path;

pub type Result<T> = std::result::Result<T, Box<dyn std::error::Error>>;

// The places of the root and of a table.
const PLACES: u8 = 64;
const SHAPE: Shape = Shape::wide(2, 6, 16_777_216, PLACES, 16_777_216);
// The registers. Only the root is kept in one. Reading fills registers too, so the next save has it.
const ROOT: u16 = 0;
const LINK: u16 = 1;
const ENTRY: u16 = 2;
const REST: u16 = 3;
const VALUE: u16 = 4;
const TABLE: u16 = 5;
// The places of an entry.
const NEXT: u8 = 0;
const CONTENT: u8 = 1;
// Garbage is reclaimed once there are half as many objects more than it left last, and these.
const SPARE: u64 = 1_000;

pub struct Kv {
    file: NodeFile,
    _lock: File,
}

impl Kv {
    /// Opens the store in a folder, or makes a new one there. It waits until no other process has
    /// it open.
    pub fn open(folder: &Path) -> Result<Self> {
        fs::create_dir_all(folder)?;
        let lock = File::create(folder.join("lock"))?;
        lock.lock()?;
        let mut kv = Kv { file: NodeFile::open(folder.join("node"))?, _lock: lock };
        if kv.node().register(ROOT)?.is_none() {
            kv.make_tables()?;
        }
        Ok(kv)
    }

    fn node(&self) -> &Node {
        &self.file.node
    }

    // They are all in one batch, so there are all of them or none.
    fn make_tables(&mut self) -> Result<()> {
        self.node().alloc(ROOT, PLACES)?;
        for place in 0..PLACES {
            self.node().alloc(TABLE, PLACES)?;
            self.node().store(ROOT, place, TABLE)?;
        }
        self.end(Ok(()))
    }

    // Ends a change: drops the registers, and saves, so that all of it counts or nothing.
    fn end(&mut self, outcome: Result<()>) -> Result<()> {
        for register in LINK..=TABLE {
            let _ = self.node().drop_register(register);
        }
        outcome?;
        self.file.save()
    }

    /// Sets the value of a key.
    pub fn put(&mut self, key: &[u8], value: &[u8]) -> Result<()> {
        let outcome = self.try_put(key, value);
        self.end(outcome)?;
        if u64::from(self.objects()?) > self.node().word(ROOT)? * 3 / 2 + SPARE {
            self.collect()?;
        }
        Ok(())
    }

    // What is made here is garbage until it is linked, which is the last event and can't fail.
    fn try_put(&mut self, key: &[u8], value: &[u8]) -> Result<()> {
        self.alloc(VALUE, 0, value)?;
        let (place, is_there) = self.find(key)?;
        if is_there {
            return Ok(self.node().store(ENTRY, CONTENT, VALUE)?);
        }
        self.alloc(ENTRY, 2, key)?;
        self.node().store(ENTRY, CONTENT, VALUE)?;
        Ok(self.node().store(LINK, place, ENTRY)?)
    }

    // A new object with these bytes. If the node is full, it reclaims first.
    fn alloc(&mut self, register: u16, places: u8, bytes: &[u8]) -> Result<()> {
        if self.node().alloc(register, places) == Err(Refusal::ArenaFull) {
            self.collect()?;
            self.node().alloc(register, places)?;
        }
        Ok(self.node().set_bytes(register, bytes)?)
    }

    // Finds the place for the entry of a key: it is that of the object in LINK. If the entry is
    // there, ENTRY has it.
    fn find(&self, key: &[u8]) -> Result<(u8, bool)> {
        let (node, hash, places) = (self.node(), hash(key), u64::from(PLACES));
        let mut place = (hash / places % places) as u8;
        node.load(LINK, ROOT, (hash % places) as u8)?;
        while node.load(ENTRY, LINK, place)?.is_some() {
            if node.bytes(ENTRY)? == key {
                return Ok((place, true));
            }
            node.copy(LINK, ENTRY)?;
            place = NEXT;
        }
        Ok((place, false))
    }

    /// The value of a key, if it has one.
    pub fn get(&self, key: &[u8]) -> Result<Option<Vec<u8>>> {
        if !self.find(key)?.1 {
            return Ok(None);
        }
        self.node().load(VALUE, ENTRY, CONTENT)?;
        Ok(Some(self.node().bytes(VALUE)?))
    }

    /// Deletes a key, and returns whether it had a value.
    pub fn delete(&mut self, key: &[u8]) -> Result<bool> {
        let (place, is_there) = self.find(key)?;
        if is_there {
            match self.node().load(REST, ENTRY, NEXT)? {
                Some(_) => self.node().store(LINK, place, REST)?,
                None => self.node().clear(LINK, place)?,
            }
        }
        self.end(Ok(()))?;
        Ok(is_there)
    }

    /// All keys with their values.
    pub fn list(&self) -> Result<Vec<(Vec<u8>, Vec<u8>)>> {
        let (node, mut found) = (self.node(), Vec::new());
        for chain in 0..u16::from(PLACES) * u16::from(PLACES) {
            let place = (chain % u16::from(PLACES)) as u8;
            node.load(TABLE, ROOT, (chain / u16::from(PLACES)) as u8)?;
            let mut next = node.load(ENTRY, TABLE, place)?;
            while next.is_some() {
                node.load(VALUE, ENTRY, CONTENT)?;
                found.push((node.bytes(ENTRY)?, node.bytes(VALUE)?));
                next = node.load(ENTRY, ENTRY, NEXT)?;
            }
        }
        Ok(found)
    }

    /// How many objects there are, with those that weren't reclaimed yet.
    pub fn objects(&self) -> Result<u32> {
        Ok(self.node().state()?.live)
    }

    /// Frees what was deleted or replaced. The root's word counts what is left.
    pub fn collect(&mut self) -> Result<()> {
        self.node().reclaim()?;
        self.node().set_word(ROOT, u64::from(self.objects()?))?;
        self.file.save()
    }
}
