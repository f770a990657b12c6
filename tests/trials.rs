// What the suite has of trials at rated power and beside it, and how many of each there have to be.
use desk::{self, Answer};
use std::collections::HashSet;

// Trials at rated power, each counted once whatever her IMO number.
#[derive(Default)]
pub struct Trials {
    seen: HashSet<Vec<u8>>,
    // The exact ones: by method, 2 before 3, and type; by what they have.
    exact: [[u64; 8]; 2],
    engines: [u64; 5],
    ice: [u64; 3],
    // Some limiter that binds, and some that doesn't.
    limited: [u64; 2],
    structural: u64,
    ranged: u64,
    whole: [u64; 2],
    // Those that are not, by what keeps them from it, in the order of BESIDE.
    beside: [u64; 8],
    // At design draught with the deadweights of TURNING, the first of each type not exact.
    turning: [u64; 4],
}

// What keeps a trial at or near rated power from being exact, and how many of each there have to be.
const BESIDE: [(&str, u64); 8] = [
    ("one kW off", 10_000),
    ("less than a kW off", 2_000),
    ("one tonne off Capacity", 3_000),
    ("at Capacity with f_i", 500),
    ("k below 1, bulk carriers and tankers", 900),
    ("k below 1, container ships", 500),
    ("f_c other than 1", 900),
    ("general cargo", 600),
];

// The last deadweight of a bulk carrier and of a tanker with a k below 1, and the first with k 1.
const TURNING: [(u8, u32); 4] = [(1, 200_000), (1, 200_001), (3, 100_000), (3, 100_001)];

// Its place in BESIDE; everything else about the ship would let her be exact.
fn beside(ship: &desk::Ship) -> Option<usize> {
    let off = (100 * ship.trial_power as i64 - ship.main_power(0) as i64).abs();
    let tonnes = if ship.method == 3 { 10 * ship.trial_deadweight as i64 - ship.capacity() as i64 } else { 0 };
    let scaled = ship.method == 3 && ship.scale() < 100;
    match (off, tonnes) {
        (0, 0) if scaled => Some(if ship.kind == 4 { 5 } else { 4 }),
        _ if scaled => None,
        (0, 0) if ship.has_cargo_factor() => Some(6),
        (0, 0) if ship.kind == 8 => Some(7),
        _ if ship.has_cargo_factor() || ship.kind == 8 => None,
        (100, 0) => Some(0),
        (1..=99, 0) => Some(1),
        (0, -10) | (0, 10) => Some(2),
        (0, more) if more > 0 && 5 * more == 4 * ship.lightweight as i64 => Some(3),
        _ => None,
    }
}

impl Trials {
    // A ship by method 2 or 3.
    pub fn add(&mut self, block: &[u8], ship: &desk::Ship, answer: Answer) {
        let exact = match answer {
            Answer::Exact { lower, upper, .. } => Some(lower == upper),
            _ => None,
        };
        let place = beside(ship);
        if exact.is_none() && place.is_none() || !self.seen.insert([&block[..4], &block[8..508]].concat()) {
            return;
        }
        if let Some(at) = TURNING.iter().position(|turn| ship.method == 3 && *turn == (ship.kind, ship.deadweight)) {
            self.turning[at] += 1;
        }
        if let Some(whole) = exact {
            self.whole[ship.method as usize - 2] += whole as u64;
            return self.add_exact(ship);
        }
        self.beside[place.unwrap()] += 1;
    }
    fn add_exact(&mut self, ship: &desk::Ship) {
        let used = &ship.engine[..ship.engines as usize];
        let binds = |engine: &desk::Engine| engine.main_power(0) < 75 * engine.mcr[0] as u64;
        self.exact[ship.method as usize - 2][ship.kind as usize] += 1;
        self.engines[used.len()] += 1;
        self.ice[ship.ice as usize] += 1;
        self.limited[0] += used.iter().any(binds) as u64;
        self.limited[1] += used.iter().any(|engine| engine.limit > 0 && !binds(engine)) as u64;
        self.structural += (ship.lightweight > 0) as u64;
        self.ranged += ship.has_ranges() as u64;
    }
    // What is counted, how many there are and how many there have to be.
    pub fn wants(&self) -> Vec<(String, u64, u64)> {
        let of = |what: String| format!("rated power, {}", what);
        let mut wants = vec![
            (of("different".to_string()), self.exact.iter().flatten().sum(), 5_000),
            (of("f_i".to_string()), self.structural, 500),
            (of("ranged".to_string()), self.ranged, 1_500),
            (of("whole by method 2".to_string()), self.whole[0], 300),
            (of("whole by method 3".to_string()), self.whole[1], 200),
        ];
        wants.extend((1..8).map(|kind| (of(format!("method 2 type {}", kind)), self.exact[0][kind], 500)));
        wants.extend([1, 3].iter().map(|kind| (of(format!("method 3 type {}", kind)), self.exact[1][*kind], 800)));
        wants.extend((1..5).map(|count| (of(format!("{} engines", count)), self.engines[count], 500)));
        wants.extend((0..3).map(|class| (of(format!("ice class {}", class)), self.ice[class], 1_000)));
        wants.extend((0..2).map(|way| (of(format!("limiters {}", ["that bind", "that don't"][way])), self.limited[way], 500)));
        wants.extend((0..BESIDE.len()).map(|place| (of(BESIDE[place].0.to_string()), self.beside[place], BESIDE[place].1)));
        wants.extend((0..4).map(|at| (of(format!("type and deadweight {:?}", TURNING[at])), self.turning[at], 20)));
        wants
    }
    pub fn print(&self) {
        let Trials { exact, engines, ice, limited, structural, ranged, whole, .. } = self;
        let (all, large): (u64, _) = (exact.iter().flatten().sum(), [exact[1][1], exact[1][3]]);
        print!("fleet: at rated power {} different, all exact: by method 2 of types 1-7 {:?}, ", all, &exact[0][1..]);
        println!("by method 3 bulk carriers and tankers {:?}", large);
        print!("fleet: of these with 1-4 engines {:?}, with limiters that bind and that don't {:?}, ", &engines[1..], limited);
        println!("ice classes {:?}, with f_i {}, ranges {}, whole by methods 2 and 3 {:?}", ice, structural, ranged, whole);
        let beside: Vec<String> = BESIDE.iter().zip(&self.beside).map(|((what, _), count)| format!("{} {}", what, count)).collect();
        println!("fleet: beside them, not exact: {}", beside.join("; "));
        println!("fleet: at design draught with 200,000 and 200,001 t, as tankers with 100,000 and 100,001 t: {:?}", self.turning);
    }
}
