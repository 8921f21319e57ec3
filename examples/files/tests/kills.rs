//! The program is killed at any moment, forty times. Each process finds a file for each object of
//! the node that was stored last, and none else is left in the end.
use std::process::{Command, Stdio};
use std::thread;
use std::time::Duration;
use std::{env, fs};

#[test]
fn each_file_goes_with_its_object() {
    let folder = env::temp_dir().join(format!("files-{}", std::process::id()));
    let _ = fs::remove_dir_all(&folder);
    let command = |steps: &str, seed: u64| {
        let mut it = Command::new(env!("CARGO_BIN_EXE_files"));
        it.arg(&folder).arg(steps).arg(seed.to_string());
        it.stdout(Stdio::piped()).stderr(Stdio::piped());
        it
    };
    for seed in 0..40 {
        let mut child = command("1000000", seed).spawn().expect("the program starts");
        thread::sleep(Duration::from_millis(5 + seed * 7 % 60));
        child.kill().expect("it can be killed");
        let output = child.wait_with_output().expect("it ends");
        let said = String::from_utf8_lossy(&output.stderr).into_owned();
        assert!(output.status.code().is_none(), "it ended by itself: {said}");
    }
    let output = command("200", 99).output().expect("the program runs");
    let said = String::from_utf8_lossy(&output.stdout).into_owned();
    assert!(output.status.success(), "{}", String::from_utf8_lossy(&output.stderr));
    assert!(said.ends_with(" objects, each with its file\n"), "{said}");
    assert!(fs::read_dir(folder.join("files")).expect("the folder is there").count() <= 8);
    fs::remove_dir_all(&folder).expect("the folder can be removed");
}
