//! A key-value store that outlives kills: see USAGE.

use kv::{Kv, Result};
use std::io::{self, BufRead, Write};
use std::path::PathBuf;
use std::{env, process};

const USAGE: &str = "usage: kv FOLDER
Each line of standard input is a command: put KEY VALUE, get KEY, delete KEY, list, collect.
A key has no space. `ok` says that the change is durable.";

// Does a command, and returns its answer.
fn perform(kv: &mut Kv, line: &[u8]) -> Result<Vec<u8>> {
    let words: Vec<&[u8]> = line.splitn(3, |byte| *byte == b' ').collect();
    let mut answer = b"ok".to_vec();
    match words[..] {
        [b"put", key, value] => kv.put(key, value)?,
        [b"get", key] => answer = kv.get(key)?.ok_or("there is no such key")?,
        [b"delete", key] if kv.delete(key)? => {}
        [b"delete", _] => return Err("there is no such key".into()),
        [b"list"] => {
            let lines = kv.list()?.into_iter().map(|(key, value)| [key, value].join(&b' '));
            answer = lines.collect::<Vec<_>>().join(&b'\n');
        }
        [b"collect"] => kv.collect()?,
        _ => return Err("that isn't a command".into()),
    }
    Ok(answer)
}

// Nobody knows what a file has once a write failed, so that ends the process.
fn run() -> Result<()> {
    let folder = env::args_os().nth(1).map(PathBuf::from).ok_or(USAGE)?;
    let mut kv = Kv::open(&folder)?;
    for line in io::stdin().lock().split(b'\n') {
        let answer = match perform(&mut kv, &line?) {
            Err(error) if error.is::<io::Error>() => return Err(error),
            answer => answer.unwrap_or_else(|error| format!("error: {error}").into()),
        };
        io::stdout().write_all(&[answer, b"\n".to_vec()].concat())?;
    }
    Ok(())
}

fn main() {
    if let Err(error) = run() {
        eprintln!("kv: {error}");
        process::exit(1);
    }
}
