// Vectors of bytes that go from thread to thread through a channel of Rust's standard library, which
// is crossbeam's: how many a second. bench/wide compiles it.
use std::sync::mpsc::sync_channel;
use std::thread;
use std::time::Instant;

const ROOM: usize = 32;

fn main() {
    for (bytes, count) in [(0, 2_000_000), (16, 2_000_000), (100, 1_000_000), (1000, 500_000), (64_000, 20_000)] {
        let (sender, receiver) = sync_channel::<Vec<u8>>(ROOM);
        let data = vec![7; bytes];
        let began = Instant::now();
        let sending = thread::spawn(move || {
            for _ in 0..count {
                sender.send(data.clone()).unwrap();
            }
        });
        let came: usize = receiver.iter().map(|it| it.len()).sum();
        sending.join().unwrap();
        assert_eq!(came, bytes * count);
        let rate = count as f64 / began.elapsed().as_secs_f64();
        println!("a channel of Rust, {bytes} bytes\t{}", rate.round());
    }
}
