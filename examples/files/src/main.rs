//! An open file for each object, which is closed and removed once the object is freed: each once,
//! and none too early, also if the process is killed at any moment. See USAGE.
//!
//! A file is made before the image that first has its object is stored, and removed once an image
//! is stored that hasn't the object any more. After a kill, the files of objects that the stored
//! image hasn't are removed.
use markring::{Events, Node, Ref, Refusal, Shape, WeakTable};
use std::collections::BTreeSet;
use std::error::Error;
use std::fs::{self, File};
use std::io::{ErrorKind, Write};
use std::path::{Path, PathBuf};
use std::{env, process};

type Result<T> = std::result::Result<T, Box<dyn Error>>;

const USAGE: &str = "usage: files FOLDER STEPS SEED
It makes and loses objects of a node that is kept in FOLDER.";
const REGISTERS: u16 = 8;

struct Files {
    folder: PathBuf,
    node: Node,
    table: WeakTable<File>,
}

impl Files {
    // Opens the node that was stored last, or makes one. Each of its objects must have its file.
    fn open(folder: &Path) -> Result<Self> {
        fs::create_dir_all(folder.join("files"))?;
        let node = match fs::read(folder.join("node")) {
            Ok(image) => Node::from_image(&image, 0)?,
            Err(error) if error.kind() == ErrorKind::NotFound => {
                Node::with_shape(Shape::wide(2, REGISTERS, 256, 1, 0), 0, 0)?
            }
            Err(error) => return Err(error.into()),
        };
        let table = WeakTable::of(&node)?;
        let folder = folder.to_path_buf();
        let mut files = Files { folder, node, table };
        files.open_all()?;
        Ok(files)
    }

    fn path(&self, object: Ref) -> PathBuf {
        self.folder.join("files").join(object.to_string())
    }

    // Opens the file of each object, and removes all others.
    fn open_all(&mut self) -> Result<()> {
        let mut names = BTreeSet::new();
        for object in self.node.objects()? {
            let reference = object?.reference;
            let file = File::open(self.path(reference))
                .map_err(|error| format!("{reference} was removed too early: {error}"))?;
            self.table.insert(reference, file);
            names.insert(reference.to_string());
        }
        for entry in fs::read_dir(self.folder.join("files"))? {
            let entry = entry?;
            if !names.contains(&*entry.file_name().to_string_lossy()) {
                fs::remove_file(entry.path())?;
            }
        }
        Ok(())
    }

    // Makes an object with its file. What the register had is lost.
    fn make(&mut self, register: u16) -> Result<()> {
        match self.node.alloc(register, 0) {
            Ok(object) => {
                let file = File::create_new(self.path(object))?;
                self.table.insert(object, file);
            }
            Err(Refusal::ArenaFull) => {} // until it reclaims
            Err(refusal) => return Err(refusal.into()),
        }
        Ok(())
    }

    fn reclaim(&self) -> Result<()> {
        match self.node.reclaim() {
            Ok(_) | Err(Refusal::NothingToDo) => Ok(()),
            Err(refusal) => Err(refusal.into()),
        }
    }

    // Saves the node, and closes and removes the files of what is gone for good.
    fn save(&mut self) -> Result<()> {
        let image = self.node.image()?;
        let new = self.folder.join("new");
        let mut file = File::create(&new)?;
        file.write_all(&image.bytes)?;
        file.sync_all()?;
        fs::rename(new, self.folder.join("node"))?;
        self.node.kept(image.mark)?;
        for (object, _file) in self.table.take_freed(&self.node)? {
            fs::remove_file(self.path(object.reference))?;
        }
        Ok(())
    }
}

// Numbers that look random.
struct Numbers(u64);

impl Numbers {
    fn below(&mut self, limit: u64) -> u64 {
        self.0 ^= self.0 << 13;
        self.0 ^= self.0 >> 7;
        self.0 ^= self.0 << 17;
        self.0 % limit
    }
}

fn run() -> Result<()> {
    let words: Vec<String> = env::args().collect();
    let [_, folder, steps, seed] = &words[..] else {
        return Err(USAGE.into());
    };
    let mut files = Files::open(Path::new(folder))?;
    let mut numbers = Numbers(seed.parse::<u64>()? * 2 + 1);
    for _ in 0..steps.parse()? {
        files.make(numbers.below(u64::from(REGISTERS)) as u16)?;
        if numbers.below(8) == 0 {
            files.reclaim()?;
        }
        if numbers.below(4) == 0 {
            files.save()?;
        }
    }
    files.reclaim()?;
    files.save()?;
    let live = files.node.state()?.live as usize;
    if fs::read_dir(files.folder.join("files"))?.count() != live || files.table.len() != live {
        return Err("not each object has its file, or another one has".into());
    }
    println!("{live} objects, each with its file");
    Ok(())
}

fn main() {
    if let Err(error) = run() {
        eprintln!("files: {error}");
        process::exit(1);
    }
}
