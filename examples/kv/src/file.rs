//! A node in a file: its image, and the batches behind it. Each is a record: its length (8 bytes),
//! its checksum (8 bytes), and its bytes.

use crate::{Result, SHAPE};
use markring::{Events, Node, Refusal};
use std::fs::{self, File};
use std::io::Write;
use std::path::PathBuf;

const HEAD: usize = 16;
// A new image is due once the batches have as many bytes as the last one, and these.
const SPARE: usize = 1 << 20;

/// The FNV-1a hash. It must stay the same, since tables and files have it.
pub(crate) fn hash(bytes: &[u8]) -> u64 {
    bytes.iter().fold(0xcbf2_9ce4_8422_2325, |hash, byte| {
        (hash ^ u64::from(*byte)).wrapping_mul(0x0100_0000_01b3)
    })
}

pub(crate) struct NodeFile {
    pub(crate) node: Node,
    path: PathBuf,
    file: File,
    image: usize,
    batches: usize,
}

impl NodeFile {
    /// Opens the node in a file, or makes both. A record at its end that a kill or a crash cut short
    /// is dropped: it wasn't acknowledged.
    pub(crate) fn open(path: PathBuf) -> Result<Self> {
        if !path.exists() {
            let node = Node::with_shape(SHAPE, 0, 0)?;
            node.log(true)?;
            let file = File::create(path.with_extension("new"))?;
            let mut made = NodeFile { node, path, file, image: 0, batches: 0 };
            made.write_image()?;
            return Ok(made);
        }
        let bytes = fs::read(&path)?;
        let (image, mut rest) = record(&bytes).ok_or("the file is damaged")?;
        let mut batches = Vec::new();
        while let Some((batch, behind)) = record(rest) {
            batches.extend_from_slice(batch);
            rest = behind;
        }
        if length(rest).is_some_and(|it| it < rest.len()) {
            return Err("the file is damaged".into());
        }
        let node = Node::from_batches(image, &batches, 0)?;
        let file = File::options().append(true).open(&path)?;
        file.set_len((bytes.len() - rest.len()) as u64)?;
        Ok(NodeFile { node, path, file, image: image.len(), batches: batches.len() })
    }

    /// Saves the node. What has changed is durable once this returns.
    pub(crate) fn save(&mut self) -> Result<()> {
        if !self.node.unsaved()? {
            return Ok(());
        }
        let is_due = self.batches > self.image + SPARE;
        let batch = if is_due { Err(Refusal::NoLog) } else { self.node.batch() };
        if batch == Err(Refusal::NoLog) {
            return self.write_image();
        }
        let batch = batch?;
        self.append(&batch.bytes)?;
        self.batches += batch.bytes.len();
        Ok(self.node.kept(batch.mark)?)
    }

    // Puts a file with the node's image into the place of the old one.
    fn write_image(&mut self) -> Result<()> {
        let (image, new) = (self.node.image()?, self.path.with_extension("new"));
        self.file = File::create(&new)?;
        self.append(&image.bytes)?;
        fs::rename(&new, &self.path)?;
        File::open(self.path.with_file_name("."))?.sync_all()?;
        (self.image, self.batches) = (image.bytes.len(), 0);
        Ok(self.node.kept(image.mark)?)
    }

    fn append(&mut self, bytes: &[u8]) -> Result<()> {
        self.file.write_all(&(bytes.len() as u64).to_le_bytes())?;
        self.file.write_all(&hash(bytes).to_le_bytes())?;
        self.file.write_all(bytes)?;
        Ok(self.file.sync_data()?)
    }
}

// How long the first record is, with its head.
fn length(bytes: &[u8]) -> Option<usize> {
    let length = u64::from_le_bytes(*bytes.first_chunk()?);
    usize::try_from(length).ok()?.checked_add(HEAD)
}

// The bytes of the first record, and what is behind it, if it is whole.
fn record(bytes: &[u8]) -> Option<(&[u8], &[u8])> {
    let (record, behind) = bytes.split_at_checked(length(bytes)?)?;
    let (head, bytes) = record.split_at(HEAD);
    (head[8..] == hash(bytes).to_le_bytes()).then_some((bytes, behind))
}
