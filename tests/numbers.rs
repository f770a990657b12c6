// Cases for the number crates, with expectations worked out here in whole numbers: of 128 bits, of as many as it takes, or
// for powers with a large denominator of 256 bits, rounded down and up (powers.rs). Nothing is decided in doubles.
// Each kind of expectation is then falsified, and every case of it must be found wrong.
// Usage: numbers RUNNER PROGRAM
#[path = "power_cases.rs"]
mod power_cases;
#[path = "powers.rs"]
mod powers;
#[path = "root_cases.rs"]
mod root_cases;

use powers::{agree, is_power, Tally, UNIT};
use std::cmp::Ordering;
use std::io::Write;
use std::process::{Command, Stdio};

struct Random(u64);

impl Random {
    fn next(&mut self) -> u64 {
        self.0 ^= self.0 << 13;
        self.0 ^= self.0 >> 7;
        self.0 ^= self.0 << 17;
        self.0.wrapping_mul(0x2545_f491_4f6c_dd1d)
    }
    fn up_to(&mut self, n: u64) -> u64 {
        self.next() % (n + 1)
    }
    // As many small numbers as large ones.
    fn any_size(&mut self) -> u64 {
        let bits = self.up_to(64) as u32;
        if bits == 0 { 0 } else { self.next() >> (64 - bits) }
    }
}

// Non-negative integers of any size, least 32 bits first: products and comparison are all that is asked of them.
#[derive(Clone)]
struct Big(Vec<u32>);

impl Big {
    fn of(mut n: u128) -> Big {
        let mut limbs = Vec::new();
        while n > 0 {
            limbs.push(n as u32);
            n >>= 32;
        }
        Big(limbs)
    }
    fn times(&self, other: &Big) -> Big {
        let mut limbs = vec![0u32; self.0.len() + other.0.len()];
        for (i, a) in self.0.iter().enumerate() {
            let mut carry = 0u64;
            for (j, b) in other.0.iter().enumerate() {
                let sum = limbs[i + j] as u64 + *a as u64 * *b as u64 + carry;
                limbs[i + j] = sum as u32;
                carry = sum >> 32;
            }
            limbs[i + other.0.len()] = carry as u32;
        }
        while limbs.last() == Some(&0) {
            limbs.pop();
        }
        Big(limbs)
    }
    fn cubed(n: u64) -> Big {
        Big::of(n as u128 * n as u128).times(&Big::of(n as u128))
    }
    fn against(&self, other: &Big) -> Ordering {
        self.0.len().cmp(&other.0.len()).then_with(|| self.0.iter().rev().cmp(other.0.iter().rev()))
    }
}

// The greatest r up to 2^32 with power(r) at most n; a power beyond 128 bits is more.
fn whole_root(n: u64, exponent: u32) -> u64 {
    let at_most = |r: u64| (r as u128).checked_pow(exponent).map_or(false, |power| power <= n as u128);
    let (mut low, mut high) = (0u64, 1u64 << 32);
    while high - low > 1 {
        let middle = (low + high) / 2;
        if at_most(middle) { low = middle } else { high = middle }
    }
    low
}

// What can be asked, and how many of each there have to be. Of a ratio of 1, and of the next one above it, more is expected:
// these are kinds of their own, and so is that the two powers agree, and the two cube roots.
const KINDS: [(&str, u64); 15] = [
    ("square roots", 10_000),
    ("plain cube roots", 180_000),
    ("cube roots of ratios", 10_000),
    ("quotients of 10^6", 2_000),
    ("quick powers", 50_000),
    ("plain powers", 50_000),
    ("quotients of 10^15", 10_000),
    ("quick cube roots", 180_000),
    ("cube roots of n/n", 2_000),
    ("quick powers of a/a", 10_000),
    ("plain powers of a/a", 10_000),
    ("quick powers of a/(a - 1)", 10_000),
    ("plain powers of a/(a - 1)", 10_000),
    ("quick powers against plain ones", 50_000),
    ("quick cube roots against plain ones", 180_000),
];
// Of each group of powers and of cube roots.
const FEWEST_OF_GROUP: u64 = 5_000;
const BOTH_POWERS: usize = 13;
const BOTH_ROOTS: usize = 14;

// The place in KINDS; None for what can't be asked.
fn kind(case: &[u64; 5]) -> Option<usize> {
    match *case {
        [3, n, d, ..] if n == d => Some(8),
        [asked, a, b, ..] if (asked == 5 || asked == 6) && a == b => Some(asked as usize + 4),
        // To the power 0 that is 1 again.
        [asked, a, b, c, _] if (asked == 5 || asked == 6) && a.wrapping_sub(b) == 1 && c > 0 => Some(asked as usize + 6),
        [asked, ..] if (1..=8).contains(&asked) => Some(asked as usize - 1),
        _ => None,
    }
}

fn fail(case: &[u64; 5], line: &str, why: &str) -> String {
    format!("case {:?} answered '{}': {}", case, line, why)
}

fn is_inside(case: &[u64; 5]) -> bool {
    let [asked, a, b, c, d] = *case;
    match asked {
        1 | 2 | 8 => true,
        3 => b > 0 && a < 1 << 40 && b as u128 <= 8 * a as u128,
        4 => b > 0 && b <= 1_000_000_000_000_000_000 && a < 1 << 43,
        5 | 6 => powers::is_inside(a, b, c, d),
        7 => b > 0 && b < 1 << 63 && (a as u128) < 9223 * b as u128,
        _ => false,
    }
}

// The root of a/b in units of 1/s, rounded down and up.
fn is_ratio_root(a: u64, b: u64, s: u64, low: u64, high: u64, shift: u64) -> bool {
    let scaled = Big::of(a as u128).times(&Big::cubed(s));
    let over = |t: u64| Big::cubed(t).times(&Big::of(b as u128)).against(&scaled);
    s.is_power_of_two()
        && (1 << 20..=1 << 21).contains(&low)
        && over(low + shift) != Ordering::Greater
        && over(low + 1) == Ordering::Greater
        && over(high) != Ordering::Less
        && over(high - 1) == Ordering::Less
}

// n/d in units of 1/scale, rounded down and up.
fn is_quotient(n: u64, d: u64, scale: u64, low: u64, high: u64, shift: u64) -> bool {
    let (scaled, d) = (n as u128 * scale as u128, d as u128);
    low as u128 == scaled / d + shift as u128 && high as u128 == (scaled + d - 1) / d
}

// None unless the line is these numbers and nothing else, each in its shortest writing.
fn numbers_of(line: &str) -> Vec<u64> {
    let numbers: Vec<u64> = line.split(' ').filter_map(|word| word.parse().ok()).collect();
    let written: Vec<String> = numbers.iter().map(|number| number.to_string()).collect();
    if written.join(" ") == line { numbers } else { Vec::new() }
}

// Whether a line answers its case; `slip` falsifies the expectation.
fn verdict(case: &[u64; 5], line: &str, slip: bool, tally: &mut Tally) -> Result<(), String> {
    let [_, a, b, _, _] = *case;
    let shift = slip as u64;
    if !is_inside(case) {
        return if line == "-" { Ok(()) } else { Err(fail(case, line, "the numbers are outside the domain")) };
    }
    let right = match (kind(case), &numbers_of(line)[..]) {
        (Some(0), [r]) => *r == whole_root(a, 2) + shift,
        (Some(1), [r]) | (Some(7), [r]) => *r == whole_root(a, 3) + shift,
        (Some(2), [s, low, high]) => is_ratio_root(a, b, *s, *low, *high, shift),
        (Some(3), [low, high]) => is_quotient(a, b, 1_000_000, *low, *high, shift),
        (Some(4), [low, high]) | (Some(5), [low, high]) => is_power(case, *low, *high, slip, tally),
        (Some(6), [low, high]) => is_quotient(a, b, 1_000_000_000_000_000, *low, *high, shift),
        (Some(8), [s, low, high]) => is_ratio_root(a, b, *s, *low, *high, 0) && [*low + shift, *high] == [*s, *s],
        (Some(9), [low, high]) | (Some(10), [low, high]) => [*low, *high] == [UNIT + shift, UNIT],
        // However near to 1, it is above.
        (Some(11), [low, high]) | (Some(12), [low, high]) if slip => is_power(case, *low, *high, slip, tally) || *high <= UNIT,
        (Some(11), [low, high]) | (Some(12), [low, high]) => is_power(case, *low, *high, slip, tally) && *high > UNIT,
        _ => false,
    };
    if right { Ok(()) } else { Err(fail(case, line, "wrong")) }
}

// The kind of agreement that a case and the next one are about; None where the same isn't asked both ways.
fn kind_of_both(all: &[[u64; 5]], place: usize) -> Option<usize> {
    let (case, after) = (all[place], *all.get(place + 1)?);
    match [case[0], after[0]] {
        _ if case[1..] != after[1..] || !is_inside(&case) => None,
        [5, 6] => Some(BOTH_POWERS),
        [2, 8] => Some(BOTH_ROOTS),
        _ => None,
    }
}

// The two answers to the same power or cube root stand one after the other.
fn verdict_on_both(all: &[[u64; 5]], lines: &[&str], place: usize, slip: bool) -> Option<Result<(), String>> {
    let of = kind_of_both(all, place)?;
    let agreed = match (of, &numbers_of(lines[place])[..], &numbers_of(lines[place + 1])[..]) {
        (BOTH_POWERS, [low, high], [next_low, next_high]) => agree([*low, *high], [*next_low, *next_high], slip),
        (BOTH_ROOTS, [root], [next_root]) => root.wrapping_sub(*next_root) == slip as u64,
        _ => false,
    };
    Some(if agreed { Ok(()) } else { Err(fail(&all[place], lines[place], &format!("the other way it is '{}'", lines[place + 1]))) })
}

fn cases() -> Vec<[u64; 5]> {
    let mut random = Random(0x9e37_79b9_7f4a_7c15);
    let mut all = Vec::new();
    for n in [0, 1, 2, 3, 4, 7, 8, 9, 26, 27, 28, u64::MAX, u64::MAX - 1, 1 << 62, (1 << 62) - 1, (1 << 63) + 1] {
        all.push([1, n, 0, 0, 0]);
    }
    for _ in 0..4000 {
        let r = random.up_to(0xffff_ffff);
        for off in 0..3 {
            all.push([1, (r * r).wrapping_add(off).wrapping_sub(1), 0, 0, 0]);
        }
        all.push([1, random.any_size(), 0, 0, 0]);
        let (n, d) = (random.any_size() % (1 << 41), random.any_size() % (1 << 41));
        all.push([3, n, d, 0, 0]);
        all.push([3, 36_000_000, random.up_to(60_000_000), 0, 0]);
        let (s, u) = (1 + random.up_to(8000), 1 + random.up_to(8000));
        all.push([3, s * s * s, u * u * u, 0, 0]);
        all.push([4, random.any_size(), random.any_size(), 0, 0]);
    }
    ratios_next_to_one(&mut random, &mut all);
    quotients(&mut random, &mut all);
    for asked in [0, 9, 10, 255, 256, 263, 264, 1 << 32 | 5, 1 << 32 | 8, 1 << 63 | 7, u64::MAX] {
        all.extend(&[[asked, 1, 1, 0, 1], [asked, 2, 1, 1, 2]]);
    }
    all
}

// Powers of two and the numbers beside them, up to the last one asked about; it and the next are the last two.
fn about_powers_of_two(bits: u32) -> Vec<u64> {
    let mut all: Vec<u64> = (1..bits).flat_map(|bit| vec![(1 << bit) - 1, 1 << bit, (1 << bit) + 1]).collect();
    all.extend(&[(1 << bits) - 2, (1 << bits) - 1, 1 << bits]);
    all
}

// A ratio of 1 in every writing, and the ratios next to it.
fn ratios_next_to_one(random: &mut Random, all: &mut Vec<[u64; 5]>) {
    let mut numbers = about_powers_of_two(40);
    numbers.extend((0..4000).map(|_| 1 + random.any_size() % ((1 << 40) - 1)));
    for n in numbers {
        all.extend(&[[3, n, n, 0, 0], [3, n, n - 1, 0, 0], [3, n - 1, n, 0, 0]]);
    }
}

// The n below d with n * 10^15 one below a multiple of d; None where d has a factor 2 or 5, and so none has.
fn with_greatest_rest(d: u64) -> Option<u64> {
    // Euclid's steps on d and 10^15: each rest is its factor times 10^15, but for a multiple of d.
    let (mut rests, mut factors) = ((d as i128, 1_000_000_000_000_000 % d as i128), (0i128, 1i128));
    while rests.1 > 0 {
        let times = rests.0 / rests.1;
        rests = (rests.1, rests.0 - times * rests.1);
        factors = (factors.1, factors.0 - times * factors.1);
    }
    if rests.0 == 1 { Some((-factors.0).rem_euclid(d as i128) as u64) } else { None }
}

// Denominators of every size: about powers of 2 and of 10, with five last digits 0 or 9, the greatest, and those where a
// rest times 10^5, 10^10 or 10^15 comes to fill a word.
fn denominators(random: &mut Random) -> Vec<u64> {
    let mut all = about_powers_of_two(63);
    let tens: Vec<u64> = (0..19).map(|digits| 10u64.pow(digits)).collect();
    let words = [5, 10, 15].iter().flat_map(|digits| vec![(1u64 << 63) / 10u64.pow(*digits), u64::MAX / 10u64.pow(*digits)]);
    for middle in tens.into_iter().chain(words.collect::<Vec<_>>()) {
        all.extend(middle.max(4) - 3..middle + 4);
    }
    all.extend(0..41);
    for _ in 0..600 {
        let head = random.any_size() % 92_233_720_368_547;
        all.extend(&[head * 100_000, head * 100_000 + 99_999, random.any_size(), random.any_size() >> 1]);
        // Divides a power of 10.
        all.push((1 << random.up_to(15)) * 5u64.pow(random.up_to(15) as u32));
    }
    all.extend((0..40).map(|below| (1 << 63) - 1 - below));
    all
}

// Numerators at both edges of the domain, multiples of d, and those that leave a rest of 0, 1 or d - 1.
fn quotients(random: &mut Random, all: &mut Vec<[u64; 5]>) {
    for d in denominators(random) {
        let times = random.up_to(9222) as u128;
        let wide = d as u128;
        let mut numerators = vec![0, 1, wide - 1.min(wide), wide, wide + 1, times * wide, times * wide + 1, random.any_size() as u128];
        numerators.extend((0..4).map(|below| (9223 * wide + 2).max(below) - below));
        numerators.push(random.next() as u128 % (9223 * wide).max(1));
        if let Some(n) = if d > 1 { with_greatest_rest(d) } else { None } {
            numerators.extend(&[n as u128, n as u128 + times * wide, wide - n as u128, wide - n as u128 + times * wide]);
        }
        // The words that it isn't about may be any.
        let (c, e) = (random.any_size(), random.any_size());
        all.extend(numerators.iter().filter(|n| **n <= u64::MAX as u128).map(|n| [7, *n as u64, d, c, e]));
        all.push([7, u64::MAX, d, c, e]);
    }
}

// How many of each kind lie in the domain, and of how many kinds a falsified expectation goes through.
fn by_kind(all: &[[u64; 5]], lines: &[&str], tally: &mut Tally) -> ([(&'static str, u64); 15], usize) {
    let (mut counts, mut uncaught) = (KINDS, [false; 15]);
    counts.iter_mut().for_each(|kind| kind.1 = 0);
    for (place, (case, line)) in all.iter().zip(lines).enumerate().filter(|(_, (case, _))| is_inside(case)) {
        let of = kind(case).expect("what is inside can be asked");
        counts[of].1 += 1;
        uncaught[of] |= verdict(case, line, true, tally).is_ok();
        if let Some(of) = kind_of_both(all, place) {
            counts[of].1 += 1;
            uncaught[of] |= verdict_on_both(all, lines, place, true).map_or(false, |both| both.is_ok());
        }
    }
    (counts, uncaught.iter().filter(|kind| **kind).count())
}

// What is wrong with the lines, and how the powers were decided.
fn complaints(all: &[[u64; 5]], lines: &[&str]) -> (Vec<String>, Tally) {
    let (mut wrong, mut tally) = (Vec::new(), Tally::default());
    for (place, (case, line)) in all.iter().zip(lines).enumerate() {
        wrong.extend(verdict(case, line, false, &mut tally).err());
        wrong.extend(verdict_on_both(all, lines, place, false).and_then(|both| both.err()));
    }
    (wrong, tally)
}

fn answers(runner: &str, program: &str, all: &[[u64; 5]]) -> String {
    let bytes: Vec<u8> = all.iter().flatten().flat_map(|w| w.to_le_bytes()).collect();
    let mut child = Command::new(runner).arg(program).stdin(Stdio::piped()).stdout(Stdio::piped()).spawn().expect("the program runs");
    let mut input = child.stdin.take().unwrap();
    let feeder = std::thread::spawn(move || input.write_all(&bytes));
    let output = child.wait_with_output().expect("the program ends");
    feeder.join().unwrap().expect("the program reads all");
    assert!(output.status.success(), "the program ends with {}", output.status);
    String::from_utf8(output.stdout).expect("plain text")
}

// How many of each group there are.
type Counts = Vec<(&'static str, u64)>;

// The cases of every kind. Those of cube roots and of powers are asked both ways, and how many lie in the domain is counted
// by group.
fn all_cases() -> (Vec<[u64; 5]>, Counts, Counts) {
    let mut all = cases();
    let (mut of_roots, mut of_powers) = (Vec::new(), Vec::new());
    for (name, group) in root_cases::groups(&mut Random(0xbb67_ae85_84ca_a73b)) {
        of_roots.push((name, group.len() as u64));
        all.extend(group.iter().flat_map(|n| vec![[2, *n, 0, 0, 0], [8, *n, 0, 0, 0]]));
    }
    for (name, group) in power_cases::groups(&mut Random(0x6a09_e667_f3bc_c908)) {
        let inside = group.iter().filter(|[a, b, p, q]| powers::is_inside(*a, *b, *p, *q)).count();
        of_powers.push((name, inside as u64));
        all.extend(group.iter().flat_map(|[a, b, p, q]| vec![[5, *a, *b, *p, *q], [6, *a, *b, *p, *q]]));
    }
    (all, of_roots, of_powers)
}

fn listed(counts: &[(&'static str, u64)]) -> String {
    counts.iter().map(|(what, count)| format!("{} {}", count, what)).collect::<Vec<_>>().join(", ")
}

fn main() {
    let arguments: Vec<String> = std::env::args().collect();
    let (all, of_roots, of_powers) = all_cases();
    let text = answers(&arguments[1], &arguments[2], &all);
    let lines: Vec<&str> = text.lines().collect();
    if lines.len() != all.len() {
        eprintln!("numbers: {} cases, but {} lines", all.len(), lines.len());
        std::process::exit(1);
    }
    let (wrong, tally) = complaints(&all, &lines);
    for why in wrong.iter().take(10) {
        eprintln!("numbers: {}", why);
    }
    let mut falsified = Tally::default();
    let (counts, uncaught) = by_kind(&all, &lines, &mut falsified);
    let undecided = tally.undecided + falsified.undecided;
    println!("numbers: {}", listed(&counts));
    println!("numbers: cube roots that are asked both ways: {}", listed(&of_roots));
    println!("numbers: powers that are asked both ways: {}", listed(&of_powers));
    println!(
        "numbers: {} ends of powers compared in whole numbers written out, {} in rounded ones, {} undecided; {} are the power itself",
        tally.written_out, tally.rounded, undecided, tally.equal
    );
    println!("numbers: {} cases, {} wrong, {} kinds of falsified expectation uncaught", all.len(), wrong.len(), uncaught);
    let few_of_group = of_roots.iter().chain(&of_powers).any(|group| group.1 < FEWEST_OF_GROUP);
    let few = few_of_group || counts.iter().zip(&KINDS).any(|(is, least)| is.1 < least.1);
    if few {
        eprintln!("numbers: a kind or group has too few cases");
    }
    std::process::exit((!wrong.is_empty() || undecided > 0 || uncaught > 0 || few) as i32);
}
