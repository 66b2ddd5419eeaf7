//! Pairs of a post and a read over trees of words: the steps of a forest in plain Rust.
//!
//! The words behind the name are `bare`, or `kept` where each thread keeps its calls and installs in
//! lists as a pass does; `one` (all threads use the first tree) or `own` (each its own), the number of
//! threads, and the pairs of each. It prints how many pairs were made, and the nanoseconds from the
//! start of the threads to the end of the last.
use std::hint::black_box;
use std::sync::atomic::{AtomicU64, Ordering::SeqCst};
use std::time::Instant;

const VALUES: u64 = 1 << 40;

/// Trees in one row of words, as a forest has them.
struct Trees {
    levels: u32,
    words: Vec<AtomicU64>,
}

#[allow(dead_code)]
enum Call {
    Post { tree: u32, value: u64 },
    Read { tree: u32, stamp: u32, value: u64 },
}

#[allow(dead_code)]
struct Install {
    tree: u32,
    node: u32,
    stamp: u32,
    left: u32,
    right: u32,
}

/// What a pass keeps.
struct Lists {
    calls: Vec<Call>,
    trail: Vec<Install>,
}

fn stamp_of(word: u64) -> u32 {
    (word / VALUES) as u32
}

impl Trees {
    fn word(&self, tree: u32, node: u32) -> &AtomicU64 {
        &self.words[(tree * (2 << self.levels) + node) as usize]
    }

    /// One try at a parent: its install, where the exchange won.
    fn attempt(&self, tree: u32, node: u32) -> Option<Install> {
        let old = self.word(tree, node).load(SeqCst);
        let left = self.word(tree, 2 * node).load(SeqCst);
        let right = self.word(tree, 2 * node + 1).load(SeqCst);
        let stamp = stamp_of(old) + 1;
        let new = u64::from(stamp) * VALUES + (left % VALUES + right % VALUES);
        self.word(tree, node).compare_exchange(old, new, SeqCst, SeqCst).ok()?;
        Some(Install { tree, node, stamp, left: stamp_of(left), right: stamp_of(right) })
    }

    fn post(&self, lists: &mut Option<Lists>, tree: u32, session: u32, stamp: u32, value: u64) {
        let mut node = (1 << self.levels) + session;
        self.word(tree, node).store(u64::from(stamp) * VALUES + value, SeqCst);
        if let Some(lists) = lists {
            lists.calls.push(Call::Post { tree, value });
        }
        while node > 1 {
            node /= 2;
            let won = self.attempt(tree, node).or_else(|| self.attempt(tree, node));
            if let (Some(lists), Some(install)) = (&mut *lists, won) {
                lists.trail.push(install);
            }
        }
    }

    fn read(&self, lists: &mut Option<Lists>, tree: u32) -> u64 {
        let word = self.word(tree, 1).load(SeqCst);
        if let Some(lists) = lists {
            lists.calls.push(Call::Read { tree, stamp: stamp_of(word), value: word % VALUES });
        }
        word
    }
}

fn main() {
    let words: Vec<String> = std::env::args().collect();
    let kept = words[1] == "kept";
    let own = words[2] == "own";
    let threads: u32 = words[3].parse().unwrap();
    let pairs: u32 = words[4].parse().unwrap();
    let levels = threads.next_power_of_two().trailing_zeros();
    let width = threads * (2 << levels);
    let trees = Trees { levels, words: (0..width).map(|_| AtomicU64::new(0)).collect() };
    let start = Instant::now();
    let all: Vec<Option<Lists>> = std::thread::scope(|scope| {
        let run = |session| {
            let trees = &trees;
            move || {
                let tree = if own { session } else { 0 };
                let mut lists = kept.then(|| Lists { calls: Vec::new(), trail: Vec::new() });
                for pair in 0..pairs {
                    trees.post(&mut lists, tree, session, pair + 1, u64::from(pair));
                    black_box(trees.read(&mut lists, tree));
                }
                lists
            }
        };
        let running: Vec<_> = (0..threads).map(|session| scope.spawn(run(session))).collect();
        running.into_iter().map(|thread| thread.join().unwrap()).collect()
    });
    let nanos = start.elapsed().as_nanos();
    black_box(all);
    println!("{} {}", u64::from(threads) * u64::from(pairs), nanos);
}
