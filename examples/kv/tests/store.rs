//! What a store answers, what is left of it on disk, and what kills leave.

use kv::Kv;
use std::collections::BTreeMap;
use std::fs;
use std::io::{BufRead, BufReader, Write};
use std::path::{Path, PathBuf};
use std::process::{Command, Stdio};
use std::thread;
use std::time::Duration;

// The root and its tables.
const TABLES: u32 = 65;
const KILLS: u64 = 40;

type Map = BTreeMap<String, String>;

// A folder that isn't there yet, and goes with this value.
struct Folder(PathBuf);

impl Folder {
    fn new(name: &str) -> Self {
        let folder = Path::new(env!("CARGO_TARGET_TMPDIR")).join(name);
        let _ = fs::remove_dir_all(&folder);
        Folder(folder)
    }

    fn open(&self) -> Kv {
        Kv::open(&self.0).expect("the store opens")
    }
}

impl Drop for Folder {
    fn drop(&mut self) {
        let _ = fs::remove_dir_all(&self.0);
    }
}

fn all(kv: &Kv) -> Map {
    let text = |bytes| String::from_utf8(bytes).expect("only texts are put");
    let listed = kv.list().expect("it is listed");
    let count = listed.len();
    let found: Map = listed.into_iter().map(|(key, value)| (text(key), text(value))).collect();
    assert_eq!(found.len(), count, "a key is listed twice");
    for (key, value) in &found {
        assert_eq!(kv.get(key.as_bytes()).unwrap().as_deref(), Some(value.as_bytes()));
    }
    found
}

fn map(pairs: &[(&str, &str)]) -> Map {
    pairs.iter().map(|(key, value)| (key.to_string(), value.to_string())).collect()
}

// The answers to the commands in these lines.
fn answers(folder: &Folder, lines: &str) -> (String, String, bool) {
    let mut kv = Command::new(env!("CARGO_BIN_EXE_kv"))
        .arg(&folder.0)
        .stdin(Stdio::piped())
        .stdout(Stdio::piped())
        .stderr(Stdio::piped())
        .spawn()
        .expect("kv starts");
    kv.stdin.take().expect("a pipe").write_all(lines.as_bytes()).expect("kv reads");
    let done = kv.wait_with_output().expect("kv ends");
    let [out, said] = [done.stdout, done.stderr].map(|it| String::from_utf8(it).expect("texts"));
    (out, said, done.status.success())
}

#[test]
fn commands_have_answers() {
    let folder = Folder::new("commands");
    let lines = "put a 1\nput b two words\nput a 3\nget a\nget b\nlist\ndelete b\nget b\n\
        delete b\nput c\nput d \nget d\nsing\n\nget a b\ncollect\nlist\n";
    let missing = "error: there is no such key";
    let unknown = "error: that isn't a command";
    let (out, said, ended_well) = answers(&folder, lines);
    let mut expected =
        vec!["ok", "ok", "ok", "3", "two words", "a 3", "b two words", "ok", missing];
    expected.extend([missing, unknown, "ok", "", unknown, unknown, unknown, "ok", "a 3", "d "]);
    // The order of a list isn't said.
    let mut lines: Vec<&str> = out.lines().collect();
    lines[5..7].sort_unstable();
    lines[17..].sort_unstable();
    assert_eq!((lines, said.as_str(), ended_well), (expected, "", true));
}

#[test]
fn bytes_are_any_up_to_the_limit() {
    let folder = Folder::new("bytes");
    let every: Vec<u8> = (0..=255).collect();
    let largest = vec![7; 16_777_216];
    let mut kv = folder.open();
    kv.put(&every, &[]).unwrap();
    kv.put(&[], &every).unwrap();
    kv.put(b"large", &largest).unwrap();
    let refused = kv.put(b"larger", &[&largest[..], &[7]].concat()).unwrap_err();
    assert_eq!(refused.to_string(), "the object would have too many bytes");
    let refused = kv.put(&[&largest[..], &[7]].concat(), b"").unwrap_err();
    assert_eq!(refused.to_string(), "the object would have too many bytes");
    for _ in 0..2 {
        assert_eq!(kv.get(&every).unwrap(), Some(vec![]));
        assert_eq!(kv.get(&[]).unwrap().as_deref(), Some(&every[..]));
        assert!(kv.get(b"large").unwrap().as_deref() == Some(&largest[..]));
        assert_eq!(kv.get(b"larger").unwrap(), None);
        assert_eq!(kv.list().unwrap().len(), 3);
        drop(kv);
        kv = folder.open();
    }
}

#[test]
fn what_was_deleted_is_freed() {
    let folder = Folder::new("deleted");
    let mut kv = folder.open();
    assert_eq!(kv.objects().unwrap(), TABLES);
    for round in 0..40 {
        for key in 0..50 {
            kv.put(format!("{key}").as_bytes(), format!("{round}").as_bytes()).unwrap();
        }
        // Garbage is reclaimed once there are half as many objects more than needed, and 1,000. In
        // the end 2,000 values were put.
        let most = (TABLES + 100) * 3 / 2 + 1_000;
        assert!(kv.objects().unwrap() <= most, "{} objects", kv.objects().unwrap());
    }
    kv.collect().unwrap();
    assert_eq!(kv.objects().unwrap(), TABLES + 100);
    for key in 1..50 {
        assert!(kv.delete(format!("{key}").as_bytes()).unwrap());
    }
    assert!(!kv.delete(b"1").unwrap());
    kv.collect().unwrap();
    assert_eq!(kv.objects().unwrap(), TABLES + 2);
    assert_eq!(all(&kv), map(&[("0", "39")]));
}

#[test]
fn a_record_that_was_cut_short_is_dropped() {
    let folder = Folder::new("short");
    let mut kv = folder.open();
    kv.put(b"a", b"1").unwrap();
    let before = fs::metadata(folder.0.join("node")).unwrap().len() as usize;
    kv.put(b"b", b"2").unwrap();
    drop(kv);
    let whole = fs::read(folder.0.join("node")).unwrap();
    for length in before..whole.len() {
        fs::write(folder.0.join("node"), &whole[..length]).unwrap();
        folder.open().put(b"c", b"3").unwrap();
        assert_eq!(all(&folder.open()), map(&[("a", "1"), ("c", "3")]), "{length} bytes");
    }
    // A changed byte in the last record is like a record that was being written. In an earlier one,
    // changes that were answered would be lost.
    for (changed, opens) in [(whole.len() - 1, true), (before - 1, false), (20, false)] {
        let mut bytes = whole.clone();
        bytes[changed] ^= 1;
        fs::write(folder.0.join("node"), bytes).unwrap();
        match Kv::open(&folder.0) {
            Ok(kv) => assert!(opens && all(&kv) == map(&[("a", "1")]), "byte {changed}"),
            Err(it) => assert!(!opens && it.to_string() == "the file is damaged", "byte {changed}"),
        }
    }
}

// Numbers that only look random (Marsaglia's xorshift).
struct Dice(u64);

impl Dice {
    fn below(&mut self, end: u64) -> u64 {
        self.0 ^= self.0 << 13;
        self.0 ^= self.0 >> 7;
        self.0 ^= self.0 << 17;
        self.0 % end
    }
}

// A command, and what the store has after it.
fn command(dice: &mut Dice, number: u64, before: &Map) -> (String, Map) {
    let (key, mut after) = (format!("key{}", dice.below(40)), before.clone());
    let line = match dice.below(20) {
        0 => "collect\n".into(),
        1..=6 if after.remove(&key).is_some() => format!("delete {key}\n"),
        _ => {
            let length = if dice.below(10) == 0 { 300_000 } else { 3_000 };
            let value = format!("{number}{}", "x".repeat(dice.below(length) as usize));
            let line = format!("put {key} {value}\n");
            after.insert(key, value);
            line
        }
    };
    (line, after)
}

// Gives commands to a process and kills it: at any moment of the last one, or at once after its
// answer. Returns what the store had after the last one that was answered, and after the last one.
fn run_and_kill(folder: &Folder, dice: &mut Dice, number: &mut u64, before: Map) -> [Map; 2] {
    let mut kv = Command::new(env!("CARGO_BIN_EXE_kv"))
        .arg(&folder.0)
        .stdin(Stdio::piped())
        .stdout(Stdio::piped())
        .spawn()
        .expect("kv starts");
    let (mut input, output) = (kv.stdin.take().unwrap(), kv.stdout.take().unwrap());
    let (mut answers, mut last) = (BufReader::new(output).lines().map_while(Result::ok), before);
    let mut answered = last.clone();
    for left in (0..1 + dice.below(40)).rev() {
        *number += 1;
        let line;
        (line, last) = command(dice, *number, &last);
        input.write_all(line.as_bytes()).expect("kv reads");
        if left == 0 && dice.below(3) > 0 {
            thread::sleep(Duration::from_micros(dice.below(3_000)));
            break;
        }
        assert_eq!(answers.next().as_deref(), Some("ok"), "{line}");
        answered = last.clone();
    }
    kv.kill().expect("it is killed");
    assert_eq!(kv.wait().expect("it ends").code(), None, "kv ended before it was killed");
    if answers.next().is_some() {
        answered = last.clone();
    }
    [answered, last]
}

#[test]
fn each_answered_change_outlives_kills() {
    let (folder, mut dice, mut number) = (Folder::new("kills"), Dice(0x9e37_79b9_7f4a_7c15), 0);
    let mut before = Map::new();
    for kill in 0..KILLS {
        let [answered, sent] = run_and_kill(&folder, &mut dice, &mut number, before);
        let found = all(&folder.open());
        assert!(found == answered || found == sent, "after kill {kill}, at command {number}");
        before = found;
    }
    // Nothing but what is listed is left.
    assert!(number > 2 * KILLS, "only {number} commands");
    let mut kv = folder.open();
    kv.collect().unwrap();
    assert_eq!(kv.objects().unwrap(), TABLES + 2 * before.len() as u32);
}
