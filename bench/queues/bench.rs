// Times a port's row beside a VecDeque of buffers that are made at the start and used again.
use std::collections::VecDeque;
use std::time::Instant;

unsafe extern "C" {
    safe fn rows_through(frame: *const u8, len: usize, depth: u8, rounds: u64) -> u64;
}

const ROUNDS: u64 = 1_000_000;
const DEPTH: u8 = 16;

// The plain ring: waiting buffers in one VecDeque, free ones in another.
fn deque_through(frame: &[u8], depth: u8, rounds: u64) -> u64 {
    let mut free: VecDeque<Vec<u8>> = (0..16).map(|_| Vec::with_capacity(1529)).collect();
    let mut waiting: VecDeque<Vec<u8>> = VecDeque::with_capacity(16);
    let mut sum = 0u64;
    for _ in 0..rounds {
        for _ in 0..depth {
            if let Some(mut buffer) = free.pop_front() {
                buffer.clear();
                buffer.extend_from_slice(frame);
                waiting.push_back(buffer);
            }
        }
        for _ in 0..depth {
            if let Some(buffer) = waiting.pop_front() {
                sum = sum.wrapping_add(u64::from(buffer[0]));
                free.push_back(buffer);
            }
        }
    }
    sum
}

fn timed(name: &str, len: usize, f: impl FnOnce() -> u64) -> u64 {
    let start = Instant::now();
    let sum = f();
    let frames = (ROUNDS * u64::from(DEPTH)) as f64 / start.elapsed().as_secs_f64() / 1e6;
    println!("{name:<12} {len:>5} bytes {frames:>8.1} million frames/s");
    sum
}

fn main() {
    for len in [64usize, 512, 1529] {
        let frame = vec![3u8; len];
        let a = timed("row", len, || rows_through(std::hint::black_box(frame.as_ptr()), len, DEPTH, ROUNDS));
        let b = timed("VecDeque", len, || deque_through(std::hint::black_box(&frame), DEPTH, ROUNDS));
        assert_eq!(a, b);
    }
}
