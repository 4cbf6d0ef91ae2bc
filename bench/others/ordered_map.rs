//! Transactions of one edge each on an ordered map of Rust's library behind a lock: one writer at a time, and a scan stops the
//! writer. The words and what is printed are told in stores.h; FOLDER isn't used.
//!
//! With `reads WRITERS COUNT` behind THREADS so many threads look up COUNT drawn edges each in place of that, 1,024 while they hold
//! the lock once, and so many others set edges meanwhile. It prints `reads` and `transactions`, each with how many a second.

use std::collections::BTreeMap;
use std::sync::atomic::{AtomicBool, AtomicU64, Ordering::SeqCst};
use std::sync::RwLock;
use std::time::Instant;
use std::{env, fs, thread};

type Rows = BTreeMap<(u32, u32), u32>;

/// The numbers of a file, as many on each line.
fn numbers_of<const COUNT: usize>(name: &str) -> Vec<[u32; COUNT]> {
    let text = fs::read_to_string(name).unwrap_or_else(|fault| panic!("{name}: {fault}"));
    let numbers: Vec<u32> = text.split_ascii_whitespace().map(|word| word.parse().expect("a number")).collect();
    numbers.chunks_exact(COUNT).map(|line| line.try_into().expect("a whole line")).collect()
}

/// Makes a change in a transaction of its own, and answers whether it was made.
fn make(store: &RwLock<Rows>, [act, source, target]: [u32; 3]) -> bool {
    let mut rows = store.write().expect("nobody fails with the lock");
    let is_there = rows.contains_key(&(source, target));
    let may = rows.contains_key(&(source, 0)) && rows.contains_key(&(target, 0)) && is_there == (act != 0);
    if may {
        for ends in [(source, target), (target, source)] {
            if act == 2 {
                rows.remove(&ends);
            } else {
                rows.insert(ends, act + 1);
            }
        }
    }
    may
}

/// How many edges are looked up under the lock at once.
const READS: usize = 1024;

/// So many edges, each drawn among all of them by SplitMix64.
fn drawn_edges(edges: &[[u32; 3]], count: usize, mut state: u64) -> Vec<[u32; 3]> {
    let mut draw = || {
        state = state.wrapping_add(0x9e37_79b9_7f4a_7c15);
        let mixed = (state ^ (state >> 30)).wrapping_mul(0xbf58_476d_1ce4_e5b9);
        let mixed = (mixed ^ (mixed >> 27)).wrapping_mul(0x94d0_49bb_1331_11eb);
        mixed ^ (mixed >> 31)
    };
    (0..count).map(|_| edges[(draw() % edges.len() as u64) as usize]).collect()
}

/// How many of the edges there are.
fn read(store: &RwLock<Rows>, edges: &[[u32; 3]]) -> u64 {
    let count = |batch: &[[u32; 3]]| {
        let rows = store.read().expect("nobody fails with the lock");
        batch.iter().filter(|[source, target, _]| rows.contains_key(&(*source, *target))).count() as u64
    };
    edges.chunks(READS).map(count).sum()
}

/// Times reads by so many threads, each of its part of the edges, while so many others set edges.
fn time_reads(store: &RwLock<Rows>, edges: &[[u32; 3]], readers: usize, writers: usize) {
    let (set, is_done) = (AtomicU64::new(0), AtomicBool::new(false));
    let parts: Vec<_> = edges.chunks(edges.len() / (readers + writers) + 1).collect();
    let begun = Instant::now();
    thread::scope(|scope| {
        for part in &parts[readers..] {
            scope.spawn(|| {
                for [source, target, _] in part.iter().cycle().take_while(|_| !is_done.load(SeqCst)) {
                    set.fetch_add(u64::from(make(store, [1, *source, *target])), SeqCst);
                }
            });
        }
        let readers: Vec<_> = parts[..readers].iter().map(|part| scope.spawn(|| read(store, part))).collect();
        let found = readers.into_iter().map(|reader| reader.join().expect("a reader ends")).sum();
        say_rate("reads", found, begun);
        say_rate("transactions", set.load(SeqCst), begun);
        is_done.store(true, SeqCst);
    });
}

/// How many rows there are, a sum of them, and whether an edge has one arc without the other.
fn scan(store: &RwLock<Rows>) -> (u64, u64, bool) {
    let (mut count, mut sum, mut difference) = (0, 0_u64, 0_u64);
    for (&(source, target), &weight) in store.read().expect("nobody fails with the lock").iter() {
        let (source, target, weight) = (u64::from(source), u64::from(target), u64::from(weight));
        count += 1;
        sum = sum.wrapping_add(source.wrapping_mul(target + 7).wrapping_mul(weight + 13));
        let (least, most) = (source.min(target), source.max(target));
        let mixed = (least.wrapping_mul(2654435761) ^ most).wrapping_mul(weight + 13);
        if least != 0 {
            difference = if source < target { difference.wrapping_add(mixed) } else { difference.wrapping_sub(mixed) };
        }
    }
    (count, sum, difference != 0)
}

fn say_rate(name: &str, count: u64, begun: Instant) {
    println!("{name} {:.0}", count as f64 / begun.elapsed().as_secs_f64());
}

/// All rows, in their order.
fn rows_of(graph: &str) -> Vec<((u32, u32), u32)> {
    let mut rows: Vec<_> = numbers_of::<1>(&format!("{graph}.v")).into_iter().map(|[id]| ((id, 0), 0)).collect();
    for [source, target, weight] in numbers_of::<3>(&format!("{graph}.e")) {
        rows.extend([((source, target), weight), ((target, source), weight)]);
    }
    rows.sort_unstable();
    rows
}

fn main() {
    let words: Vec<String> = env::args().collect();
    let threads: usize = words[3].parse().expect("a number of threads");
    if words.get(4).is_some_and(|word| word == "reads") {
        let number = |place: usize| words[place].parse::<usize>().expect("a number");
        let (writers, count) = (number(5), number(6));
        let edges = drawn_edges(&numbers_of::<3>(&format!("{}.e", words[1])), count * (threads + writers), 1);
        let store: RwLock<Rows> = RwLock::new(rows_of(&words[1]).into_iter().collect());
        return time_reads(&store, &edges, threads, writers);
    }
    let changes = numbers_of::<3>(&format!("{}.changes", words[1]));
    let rows = rows_of(&words[1]);
    let begun = Instant::now();
    let store: RwLock<Rows> = RwLock::new(rows.into_iter().collect());
    say_rate("load", store.read().expect("nobody fails with the lock").len() as u64, begun);

    let (scanned, torn, is_done) = (AtomicU64::new(0), AtomicU64::new(0), AtomicBool::new(false));
    let begun = Instant::now();
    thread::scope(|scope| {
        let writers: Vec<_> = changes
            .chunks(changes.len() / threads + 1)
            .map(|part| scope.spawn(|| part.iter().filter(|change| make(&store, **change)).count() as u64))
            .collect();
        if words.len() > 4 {
            scope.spawn(|| {
                while !is_done.load(SeqCst) {
                    let (count, _, is_torn) = scan(&store);
                    scanned.fetch_add(count, SeqCst);
                    torn.fetch_add(u64::from(is_torn), SeqCst);
                }
            });
        }
        let made = writers.into_iter().map(|writer| writer.join().expect("a writer ends")).sum();
        say_rate("transactions", made, begun);
        is_done.store(true, SeqCst);
    });
    if words.len() > 4 {
        say_rate("scanned", scanned.load(SeqCst), begun);
        println!("torn {}", torn.load(SeqCst));
    }
    let begun = Instant::now();
    let (count, sum, _) = scan(&store);
    say_rate("scan", count, begun);
    println!("rows {count}\nsum {sum}");
}
