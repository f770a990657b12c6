// The powers that are asked both ways: numbers of every size, and in number where an answer may be at its worst.
use super::powers::{is_inside, LAST_BASE, LAST_EXPONENT};
use super::{about_powers_of_two, whole_root, Random};
use std::collections::HashSet;

// What is asked: a, b, p and q of (a/b)^(p/q).
pub type Asked = [u64; 4];

// Exponents p/q of every size, 0 and the greatest below 1 among them; 1 is none, and 2^24 no denominator.
fn exponents(random: &mut Random) -> Vec<(u64, u64)> {
    let last = LAST_EXPONENT;
    let mut all = vec![(0, 1), (0, last), (1, last), (last - 1, last), (last - 2, last), (1, 2), (1, 3), (2, 9), (3, 20), (4, 5), (last, last), (0, last + 1)];
    for _ in 0..4 {
        let q = 1 + random.any_size() % last;
        all.extend(&[(random.up_to(q - 1), q), (q - 1, q), (0, q), (1u64.min(q - 1), q)]);
    }
    all
}

fn exponent(random: &mut Random) -> (u64, u64) {
    let some = exponents(random);
    some[random.up_to(some.len() as u64 - 1) as usize]
}

// Numbers of every size, inside the domain and outside.
fn drawn(random: &mut Random, all: &mut Vec<Asked>) {
    for _ in 0..4000 {
        let b = 1 + random.up_to(600_000);
        all.push([b + random.up_to(1 << 20), b, random.up_to(100_000), 100_000]);
        all.push([random.any_size() % (1 << 33), random.any_size() % (1 << 20), random.any_size() % (1 << 25), random.any_size() % (1 << 25)]);
        let (a, b) = (1 + random.any_size() % LAST_BASE, 1 + random.any_size() % LAST_BASE);
        let q = 1 + random.any_size() % LAST_EXPONENT;
        all.push([a.max(b), a.min(b), random.up_to(q - 1), q]);
    }
    outside(random, all);
}

// A ratio of 1 in every writing, and the ratios next to it.
fn next_to_one(random: &mut Random, all: &mut Vec<Asked>) {
    let mut bases = about_powers_of_two(32);
    bases.extend((0..400).map(|_| 1 + random.any_size() % LAST_BASE));
    for a in bases {
        for (p, q) in exponents(random) {
            all.extend(&[[a, a, p, q], [a, a - 1, p, q]]);
        }
    }
    for _ in 0..2000 {
        let (b, q) = (LAST_BASE - 1 - random.any_size() % (1 << 31), LAST_EXPONENT - random.any_size() % (1 << 23));
        all.extend(&[[b + 1, b, 1, q], [b + 1 + random.any_size() % (LAST_BASE - b), b, random.any_size() % q, q]]);
    }
}

// Bases of 2^20, the least below in this writing, and the least above, which is outside.
fn greatest_ratios(random: &mut Random, all: &mut Vec<Asked>) {
    for b in 1..4097u64 {
        let (p, q) = exponent(random);
        for a in (b << 20) - 1..(b << 20) + 2 {
            let last = LAST_EXPONENT - random.up_to(3);
            all.extend(&[[a, b, p, q], [a, b, last - 1 - random.up_to(1), last]]);
        }
    }
}

// The greatest numerator of a base, and the greatest denominators of an exponent.
fn greatest_numbers(random: &mut Random, all: &mut Vec<Asked>) {
    for step in 0..1000 {
        let b = if step < 10 { 4095 + step } else { 1 + random.any_size() % LAST_BASE };
        for _ in 0..3 {
            let (p, q) = exponent(random);
            all.push([LAST_BASE, b, p, q]);
        }
        let b = 1 + random.any_size() % LAST_BASE;
        let a = b + random.any_size() % (LAST_BASE + 1 - b);
        let q = LAST_EXPONENT - random.up_to(2);
        for p in vec![0, 1, 1 + random.any_size() % (q - 1), q / 2, q - 1, q] {
            all.push([a, b, p, q]);
        }
        all.push([a, b, random.up_to(q), LAST_EXPONENT + 1]);
    }
}

// Ratios (s/r)^k to a p-th of k: the power is (s/r)^p, in whole units where r is a small power of 2, and an end may be the
// power itself. The ratios and exponents beside them have no such power.
fn exact_roots(random: &mut Random, all: &mut Vec<Asked>) {
    for k in 2..21 {
        let greatest = whole_root(LAST_BASE, k);
        for step in 0..400 {
            let s = 1 + random.up_to(greatest - 1);
            let r = if step % 4 == 0 { 1 + random.up_to(s - 1) } else { 1 << random.up_to(63 - s.leading_zeros() as u64) };
            let (a, b) = (s.pow(k), r.pow(k));
            let (m, n) = (1 + random.any_size() % (LAST_BASE / a), 1 + random.any_size() % (LAST_EXPONENT / k as u64));
            let (a, b, p, q) = (a * m, b * m, random.up_to(k as u64 - 1) * n, k as u64 * n);
            if is_inside(a, b, p, q) {
                all.extend(&[[a, b, p, q], [a - 1, b, p, q], [a + 1, b, p, q], [a, b + 1, p, q], [a, b, p + 1, q], [a, b, p.max(1) - 1, q]]);
            }
        }
    }
}

// Bases of 2^k: the power's logarithm is k * p / q, a whole number, a 32nd, a 1024th or a 32768th, or next to one.
fn powers_of_two(random: &mut Random, all: &mut Vec<Asked>) {
    for k in 0..21 {
        for part in vec![1, 32, 1024, 32_768] {
            for _ in 0..20 {
                let b = 1 + random.any_size() % (LAST_BASE >> k);
                let q = k.max(1) * part;
                let (j, m) = (random.up_to(q), 1 + random.any_size() % (LAST_EXPONENT / q));
                for p in vec![j * m, j * m + 1, (j * m).max(1) - 1] {
                    all.extend(&[[b << k, b, p, q * m], [1 << k, 1, p, q * m]]);
                }
            }
        }
    }
}

// Bases whose leading part or whose logarithm is so many 32nds, 1024ths or 32768ths, and those beside them.
fn parts_of_bases(random: &mut Random, all: &mut Vec<Asked>) {
    for part in vec![32, 1024, 32_768] {
        for step in 0..1024 {
            let (k, j) = (random.up_to(19), some_part(random, part, step));
            let top = (part + j) << k;
            let m = 1 + random.any_size() % (LAST_BASE / top).max(1);
            let mut bases: Vec<(u64, u64)> = (top * m - 1..top * m + 2).map(|a| (a, part * m)).collect();
            // In doubles: whichever these are, they are decided as any others.
            let ratio = (k as f64 + j as f64 / part as f64).exp2();
            let b = 1 + random.any_size() % (LAST_BASE as f64 / ratio) as u64;
            let a = (b as f64 * ratio) as u64;
            bases.extend(&[(a, b), (a + 1, b)]);
            for (p, q) in vec![exponent(random), (LAST_EXPONENT - 1, LAST_EXPONENT)] {
                all.extend(bases.iter().map(|(a, b)| [*a, *b, p, q]));
            }
        }
    }
}

// Powers whose logarithm is next to so many wholes, 32nds, 1024ths or 32768ths, on either side. In doubles, as above.
fn parts_of_powers(random: &mut Random, all: &mut Vec<Asked>) {
    for part in vec![1, 32, 1024, 32_768] {
        for step in 0..1024 {
            let b = 1 + random.any_size() % (LAST_BASE >> (1 + random.up_to(11)));
            let a = (b + 1 + random.any_size() % (LAST_BASE - b)).min(b << 20);
            let logarithm = (a as f64 / b as f64).log2();
            let target = random.up_to(logarithm as u64) as f64 + some_part(random, part, step) as f64 / part as f64;
            let q = LAST_EXPONENT - random.any_size() % LAST_EXPONENT;
            let p = (target / logarithm * q as f64) as u64;
            all.extend(&[[a, b, p, q], [a, b, p + 1, q]]);
        }
    }
}

// Each in turn of the coarser parts of 1, and some of the finest.
fn some_part(random: &mut Random, part: u64, step: u64) -> u64 {
    if part <= 1024 { step % part } else { random.up_to(part - 1) }
}

// What the desk asks: deadweights to the rows of method 4, and the other exponents of its rules.
const ROWS: [(u64, u64); 8] = [
    (2_706, 54_087), (7_604, 59_522), (5_383, 55_826), (18_294, 103_046), (31_518, 138_634), (5_378, 55_820), (1_802, 39_973), (18_832, 92_050),
];

fn of_the_desk(random: &mut Random, all: &mut Vec<Asked>) {
    all.extend([93, 95, 97, 100].iter().map(|k| [100, *k, 1, 3]));
    for step in 0..600 {
        for (c, f) in &ROWS {
            let x = if step < 2 { [100, 600_000][step] } else { 100 + random.up_to(599_900) };
            all.extend(&[[x, 1, *c, 100_000], [x, 1, *f, 300_000]]);
        }
        let b = 1 + random.any_size() % 600_000;
        let a = b + random.any_size() % 600_000;
        all.extend(&[[a, b, 2, 9], [a, b, 15, 100], [a, b, 3, 10]]);
        let t = 1 + random.up_to(30_000);
        all.push([35 * (3 * t + random.up_to(300_000)), 100 * t, 8, 10]);
        all.push([1 + random.any_size() % (1 << 20), 1, 1, 6]);
    }
}

// A number of an inside case made too large or too small, by one or by as much as a word holds.
fn outside(random: &mut Random, all: &mut Vec<Asked>) {
    let far = u64::MAX;
    for _ in 0..200 {
        let b = 1 + random.any_size() % LAST_BASE;
        let (a, q) = (b + random.any_size() % (LAST_BASE + 1 - b), 1 + random.any_size() % LAST_EXPONENT);
        let p = random.up_to(q - 1);
        all.extend([b - 1, (b << 20) + 1, LAST_BASE + 1, a + (1 << 32), a + (1 << 63), far].iter().map(|a| [*a, b, p, q]));
        all.extend([0, a + 1, b + (1 << 32), 1 << 44, b + (1 << 44), far].iter().map(|b| [a, *b, p, q]));
        all.extend([q, q + 1, p + (1 << 24), p + (1 << 32), far].iter().map(|p| [a, b, *p, q]));
        all.extend([0, p, LAST_EXPONENT + 1, q + (1 << 24), q + (1 << 32), far].iter().map(|q| [a, b, p, *q]));
        all.extend(&[[far, far, p, q], [far, far - 1, p, q], [1 << 44, 1 << 44, p, q], [a, b, far - 1, far], [a, b, far, far]]);
    }
}

// Each group of cases under its name, every case once.
pub fn groups(random: &mut Random) -> Vec<(&'static str, Vec<Asked>)> {
    let makers: [(&str, fn(&mut Random, &mut Vec<Asked>)); 9] = [
        ("drawn", drawn),
        ("next to 1", next_to_one),
        ("about 2^20", greatest_ratios),
        ("of the greatest numbers", greatest_numbers),
        ("of exact roots and beside them", exact_roots),
        ("of powers of 2", powers_of_two),
        ("of bases about 32nds, 1024ths and 32768ths", parts_of_bases),
        ("that come to about such parts", parts_of_powers),
        ("of the desk", of_the_desk),
    ];
    let mut seen = HashSet::new();
    let mut all = Vec::new();
    for (name, make) in makers.iter() {
        let mut cases = Vec::new();
        make(random, &mut cases);
        cases.retain(|case| seen.insert(*case));
        all.push((*name, cases));
    }
    all
}
