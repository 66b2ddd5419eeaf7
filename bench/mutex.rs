//! Pairs of a post and a read over plain arrays under a Mutex.
//!
//! The words behind the name are `bare`, or `kept` where each thread keeps its calls in a list as a
//! pass does; `together` (one Mutex round all arrays) or `apart` (a Mutex round each); `one` (all
//! threads use the first array) or `own` (each its own); the number of threads, and the pairs of each.
//! A post locks the array and sets the thread's component; a read locks it and sums all components. It
//! prints how many pairs were made, and the nanoseconds from the start of the threads to the end of
//! the last.
use std::hint::black_box;
use std::sync::Mutex;
use std::time::Instant;

#[allow(dead_code)]
enum Call {
    Post { array: u32, value: u64 },
    Read { array: u32, stamp: u32, value: u64 },
}

/// Arrays with a component for each thread.
trait Arrays: Sync {
    fn post(&self, array: usize, thread: usize, value: u64);
    fn read(&self, array: usize) -> u64;
}

/// All under one lock.
struct Together(Mutex<Vec<Vec<u64>>>);

impl Arrays for Together {
    fn post(&self, array: usize, thread: usize, value: u64) {
        self.0.lock().unwrap()[array][thread] = value;
    }

    fn read(&self, array: usize) -> u64 {
        self.0.lock().unwrap()[array].iter().sum()
    }
}

/// A lock and cache lines of its own for each.
#[repr(align(128))]
struct Lone(Mutex<Vec<u64>>);

struct Apart(Vec<Lone>);

impl Arrays for Apart {
    fn post(&self, array: usize, thread: usize, value: u64) {
        self.0[array].0.lock().unwrap()[thread] = value;
    }

    fn read(&self, array: usize) -> u64 {
        self.0[array].0.lock().unwrap().iter().sum()
    }
}

/// A thread's pairs, and the calls that it keeps.
fn make_pairs(arrays: &impl Arrays, kept: bool, array: usize, thread: usize, pairs: u64) -> Vec<Call> {
    let mut calls = Vec::new();
    for value in 0..pairs {
        arrays.post(array, thread, value);
        if kept {
            calls.push(Call::Post { array: array as u32, value });
        }
        let sum = black_box(arrays.read(array));
        if kept {
            calls.push(Call::Read { array: array as u32, stamp: 0, value: sum });
        }
    }
    calls
}

/// The nanoseconds that all threads took.
fn measure(arrays: &impl Arrays, kept: bool, own: bool, threads: usize, pairs: u64) -> u128 {
    let start = Instant::now();
    let all: Vec<Vec<Call>> = std::thread::scope(|scope| {
        let run = |thread| {
            let array = if own { thread } else { 0 };
            scope.spawn(move || make_pairs(arrays, kept, array, thread, pairs))
        };
        let running: Vec<_> = (0..threads).map(run).collect();
        running.into_iter().map(|thread| thread.join().unwrap()).collect()
    });
    let nanos = start.elapsed().as_nanos();
    black_box(all);
    nanos
}

fn main() {
    let words: Vec<String> = std::env::args().collect();
    let kept = words[1] == "kept";
    let own = words[3] == "own";
    let threads: usize = words[4].parse().unwrap();
    let pairs: u64 = words[5].parse().unwrap();
    let nanos = if words[2] == "together" {
        let arrays = Together(Mutex::new(vec![vec![0; threads]; threads]));
        measure(&arrays, kept, own, threads, pairs)
    } else {
        let arrays = Apart((0..threads).map(|_| Lone(Mutex::new(vec![0; threads]))).collect());
        measure(&arrays, kept, own, threads, pairs)
    };
    println!("{} {}", threads as u64 * pairs, nanos);
}
