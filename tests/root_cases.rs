// The numbers whose cube root is asked both ways: of every size, about cubes, and about the steps of the quick way's table.
use super::{whole_root, Random};
use std::collections::HashSet;

// The greatest number whose cube is below 2^64.
const LAST_ROOT: u64 = 2_642_245;
// Entry i of the table, i from 1 up to this, is the whole cube root of i * 8^10.
const LAST_ENTRY: u64 = 1024;

// A number and those beside it, as far as a word holds them.
fn beside(n: u128, all: &mut Vec<u64>) {
    all.extend((n.max(1) - 1..n + 2).filter(|n| *n <= u64::MAX as u128).map(|n| n as u64));
}

// Just below a cube the root is one less.
fn about_cubes(roots: &[u64], all: &mut Vec<u64>) {
    roots.iter().for_each(|k| beside((*k as u128).pow(3), all));
}

// Every small number, powers of 2 and those beside them, and the greatest numbers of a word.
fn at_the_ends(_: &mut Random, all: &mut Vec<u64>) {
    all.extend(0..8 * LAST_ENTRY + 2);
    (0..65).for_each(|bit| beside(1 << bit, all));
    all.extend((0..1000).map(|below| u64::MAX - below));
}

// Cubes of the least numbers and of the last ones, of those about powers of 2, and of some of every size.
fn cubes(random: &mut Random, all: &mut Vec<u64>) {
    let mut roots: Vec<u64> = (0..301).chain(LAST_ROOT - 300..LAST_ROOT + 1).collect();
    (0..22).for_each(|bit| roots.extend((1 << bit) - 1..(1 << bit) + 2));
    for _ in 0..2500 {
        roots.extend(&[random.up_to(LAST_ROOT), random.up_to(LAST_ROOT) >> random.up_to(21)]);
    }
    about_cubes(&roots, all);
}

// Cubes of the entries themselves and of what they come to at i * 8^j, and of the numbers beside. Every entry is asked about
// as it stands and where the last one comes to 2^64; at the other sizes every 16th, at each size others.
fn cubes_of_entries(_: &mut Random, all: &mut Vec<u64>) {
    for i in 1..LAST_ENTRY + 1 {
        let entry = whole_root(i << 30, 3);
        for j in (0..22).filter(|j| *j == 10 || *j == 18 || (i + *j) % 16 == 0) {
            let k = entry << j >> 10;
            about_cubes(&[k.max(1) - 1, k, k + 1], all);
        }
    }
}

// i * 8^j, where one entry gives way to the next, at every size up to 2^64; i * 2^30 is among them. An entry that is too
// small shows just below: no root that starts from it is greater.
fn steps(_: &mut Random, all: &mut Vec<u64>) {
    for i in 1..LAST_ENTRY + 2 {
        (0..22).for_each(|j| beside((i as u128) << (3 * j), all));
    }
}

// As many of any size as of 64 bits, not counting the small ones, about every fifth, which are asked already.
fn drawn(random: &mut Random, all: &mut Vec<u64>) {
    all.extend((0..50_000).map(|_| random.next()));
    all.extend((0..66_000).map(|_| random.any_size()));
}

// Each group of numbers under its name, every number once.
pub fn groups(random: &mut Random) -> Vec<(&'static str, Vec<u64>)> {
    let makers: [(&str, fn(&mut Random, &mut Vec<u64>)); 5] = [
        ("of the least and the greatest numbers and about powers of 2", at_the_ends),
        ("about cubes", cubes),
        ("about cubes of the table's entries", cubes_of_entries),
        ("about the table's steps", steps),
        ("drawn", drawn),
    ];
    let mut seen = HashSet::new();
    let mut all = Vec::new();
    for (name, make) in makers.iter() {
        let mut numbers = Vec::new();
        make(random, &mut numbers);
        numbers.retain(|n| seen.insert(*n));
        all.push((*name, numbers));
    }
    all
}
