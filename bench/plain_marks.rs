//! A plain collector in Rust that keeps its blocks in lists by thread and serial, to compare with `crates/mark_bench`.
//!
//! Each line of standard input has a graph (chain, trees or random), a number of blocks, and for how many milliseconds it
//! is marked again and again. A line of the output says how many blocks were marked in a pass, and the least nanoseconds of
//! processor time that whitening and marking took. A block has a record with its shade, and its two words in a box.
use std::io::BufRead;

#[repr(C)]
struct Time {
    seconds: i64,
    nanos: i64,
}

extern "C" {
    fn clock_gettime(clock: i32, at: *mut Time) -> i32;
}

/// The processor time of this thread in nanoseconds.
fn now() -> u64 {
    let mut at = Time { seconds: 0, nanos: 0 };
    unsafe { clock_gettime(3, &mut at) };
    at.seconds as u64 * 1_000_000_000 + at.nanos as u64
}

#[derive(Clone, Copy)]
struct Id {
    thread: u32,
    serial: u32,
}

#[derive(Clone, Copy)]
enum Word {
    Null,
    Block(Id),
    #[allow(dead_code)]
    Number(u64),
}

#[derive(Clone, Copy, PartialEq)]
enum Shade {
    White,
    Grey,
    Black,
}

#[allow(dead_code)]
struct Block {
    age: u32,
    holds: u32,
    actions: u32,
    shade: Shade,
    words: Box<[Word]>,
}

/// Blocks by thread, and by serial.
struct Zone {
    threads: Vec<Vec<Block>>,
    root: Id,
}

struct Seed(u64);

impl Seed {
    fn next(&mut self, bound: u32) -> u32 {
        self.0 = self.0.wrapping_mul(6_364_136_223_846_793_005).wrapping_add(1_442_695_040_888_963_407);
        ((self.0 >> 33).wrapping_mul(bound as u64) >> 31) as u32
    }
}

/// For each block the two blocks to which it refers, and the root.
fn ends(graph: &str, count: u32) -> (Vec<[Option<u32>; 2]>, u32) {
    let mut seed = Seed(12345);
    let next = |block: u32| if block + 1 < count { block + 1 } else { 0 };
    match graph {
        "chain" => ((0..count).map(|block| [None, Some(next(block))]).collect(), 0),
        "random" => ((0..count).map(|block| [Some(seed.next(count)), Some(next(block))]).collect(), 0),
        _ => {
            let mut all: Vec<[Option<u32>; 2]> = Vec::new();
            let mut list = None;
            for tree in 0..count / 1024 {
                let mut stack: Vec<(u32, u32)> = Vec::new();
                for block in tree * 1024..tree * 1024 + 1023 {
                    let mut made = [None, None];
                    let mut height = 0;
                    if let [.., left, right] = stack[..] {
                        if left.1 == right.1 {
                            made = [Some(left.0), Some(right.0)];
                            height = right.1 + 1;
                            stack.truncate(stack.len() - 2);
                        }
                    }
                    all.push(made);
                    stack.push((block, height));
                }
                all.push([stack.pop().map(|top| top.0), list]);
                list = Some(tree * 1024 + 1023);
            }
            all.resize(count as usize, [None, None]);
            (all, list.unwrap_or(0))
        }
    }
}

fn make(graph: &str, count: u32) -> Zone {
    let (ends, root) = ends(graph, count);
    let word = |end: Option<u32>| match end {
        Some(serial) => Word::Block(Id { thread: 1, serial }),
        None => Word::Null,
    };
    let blocks = ends
        .iter()
        .map(|row| Block { age: 0, holds: 0, actions: 0, shade: Shade::White, words: Box::new([word(row[0]), word(row[1])]) })
        .collect();
    Zone { threads: vec![Vec::new(), blocks], root: Id { thread: 1, serial: root } }
}

/// Whitens all blocks and marks from the root; the times of both, and how many blocks were marked.
fn pass(zone: &mut Zone, stack: &mut Vec<Id>) -> (u64, u64, usize) {
    let start = now();
    for block in zone.threads.iter_mut().flatten() {
        block.shade = Shade::White;
    }
    let begun = now();
    let mut marked = 0;
    let root = zone.root;
    zone.threads[root.thread as usize][root.serial as usize].shade = Shade::Grey;
    stack.push(root);
    while let Some(id) = stack.pop() {
        zone.threads[id.thread as usize][id.serial as usize].shade = Shade::Black;
        marked += 1;
        for at in 0..zone.threads[id.thread as usize][id.serial as usize].words.len() {
            if let Word::Block(end) = zone.threads[id.thread as usize][id.serial as usize].words[at] {
                let block = &mut zone.threads[end.thread as usize][end.serial as usize];
                if block.shade == Shade::White {
                    block.shade = Shade::Grey;
                    stack.push(end);
                }
            }
        }
    }
    (begun - start, now() - begun, marked)
}

fn main() {
    for line in std::io::stdin().lock().lines() {
        let line = line.unwrap();
        let words: Vec<&str> = line.split(' ').collect();
        let count: u32 = words[1].parse().unwrap();
        let millis: u64 = words[2].parse().unwrap();
        let mut zone = make(words[0], count);
        let mut stack = Vec::with_capacity(count as usize);
        let first = now();
        let (mut begin, mut mark) = (u64::MAX, u64::MAX);
        let marked = loop {
            let times = pass(&mut zone, &mut stack);
            begin = begin.min(times.0);
            mark = mark.min(times.1);
            if now() - first > millis * 1_000_000 {
                break times.2;
            }
        };
        println!("{marked} {begin} {mark} 0");
    }
}
