// Ships whose trial was run at just the sum of P_ME, so that every power is one of 1, and their neighbours, which have another power
// left. With each comes what of her is exact, which follows from how she is made and not from the reference.
use edges::{at_extremes, at_whole_index};
use ships::*;

// Where the index is exact the speed is too; f_c and f_j put a power into the index alone.
#[derive(Clone, Copy, Debug, PartialEq)]
pub enum Exact {
    Index,
    SpeedAlone,
    Neither,
}

pub type Trial = (Block, Exact);

fn if_exact(exact: bool) -> Exact {
    if exact { Exact::Index } else { Exact::Neither }
}

// Every type but general cargo has method 2; at design draught k is 1 for bulk carriers and tankers alone.
const KINDS: [(u64, u64); 9] = [(1, 2), (2, 2), (3, 2), (4, 2), (5, 2), (6, 2), (7, 2), (1, 3), (3, 3)];

// The same trial at so many kilowatts and, at design draught, so many tonnes.
fn on_trial(ship: &Block, power: u64, deadweight: u64) -> Block {
    let mut block = *ship;
    put(&mut block, TRIAL_POWER, power);
    put(&mut block, TRIAL_DEADWEIGHT, if get(ship, METHOD) == 3 { deadweight } else { 0 });
    sealed(block)
}

// At the sum of P_ME and at Capacity, where these are whole kilowatts and tonnes.
fn at_rated(ship: &Block) -> Block {
    on_trial(ship, main_power(ship) / 100, capacity(ship) / 10)
}

// The ship with so much less of the last engine's limit, or of its MCR where it has none, that the sum of P_ME is whole kilowatts.
fn with_whole_power(ship: &Block) -> Option<Block> {
    let last = get(ship, ENGINES) as usize - 1;
    let limited = get(ship, limit(last)) > 0;
    let figure = get(ship, if limited { limit(last) } else { mcr(last)[0] });
    let lowered = |less: u64| {
        let mut block = *ship;
        match limited {
            true => put(&mut block, limit(last), figure - less),
            false => put_both(&mut block, mcr(last), figure - less),
        }
        block
    };
    (0..100u64.min(figure - 99)).map(lowered).find(|block| main_power(block) % 100 == 0)
}

// A ship in either layout whose sum of P_ME is whole kilowatts.
fn draw_whole(random: &mut Random, kind: u64, method: u64, ranged: bool) -> Block {
    loop {
        let ship = match random.one_in(2) {
            true => draw(random, kind, method, ranged),
            false => draw_layout_2(random, kind, method, ranged),
        };
        if let Some(block) = with_whole_power(&ship) {
            return block;
        }
    }
}

// A deadweight with a cargo volume or a gross tonnage that goes with it: below 0.55 and below 0.35 the cargo is light.
fn put_size(block: &mut Block, random: &mut Random, deadweight: u64, light: bool) {
    put(block, DEADWEIGHT, deadweight);
    let (field, even, most) = match get(block, TYPE) {
        1 => (CARGO_VOLUME, 55, 1_000_000),
        7 => (GROSS_TONNAGE, 35, 400_000),
        _ => return,
    };
    let percent = if light { random.from(10, even - 1) } else { random.from(even, even + 40) };
    put(block, field, (100 * deadweight / percent).min(most));
}

// The same with a deadweight at which k is 1, and at which the cargo can be light.
fn draw_size(block: &mut Block, random: &mut Random, light: bool) {
    let least = match (get(block, TYPE), get(block, METHOD)) {
        (1, 3) => 200_001,
        (3, 3) => 100_001,
        _ => 100,
    };
    let most = match (light, get(block, TYPE)) {
        (false, _) => 600_000,
        (true, 7) => 136_000,
        (true, _) => 540_000,
    };
    let deadweight = random.any_size(least, most);
    put_size(block, random, deadweight, light);
}

// Exact ships, each with the trials a kilowatt to either side and at design draught a tonne to either side, which are not.
fn with_neighbours(random: &mut Random, out: &mut Vec<Trial>) {
    for (kind, method) in KINDS.iter() {
        for each in 0..if *method == 3 { 900 } else { 600 } {
            let mut ship = draw_whole(random, *kind, *method, each % 3 == 0);
            draw_size(&mut ship, random, false);
            let (power, tonnes) = (main_power(&ship) / 100, capacity(&ship) / 10);
            out.push((on_trial(&ship, power, tonnes), Exact::Index));
            out.push((on_trial(&ship, power - 1, tonnes), Exact::Neither));
            out.push((on_trial(&ship, power + 1, tonnes), Exact::Neither));
            if *method == 3 {
                out.push((on_trial(&ship, power, tonnes - 1), Exact::Neither));
                out.push((on_trial(&ship, power, tonnes + 1), Exact::Neither));
            }
        }
    }
}

// At design draught k becomes 1 above 200,000 t of a bulk carrier and above 100,000 t of a tanker, and is never 1 of a container ship.
// Deadweights in tens have a whole Capacity of a container ship too.
fn at_scales(random: &mut Random, out: &mut Vec<Trial>) {
    let turning = [99_990, 100_000, 100_001, 100_010, 119_990, 120_000, 120_010, 199_990, 200_000, 200_001, 200_010, 600_000];
    for (kind, last_below) in [(1, 200_000), (3, 100_000), (4, 600_000)].iter() {
        for each in 0..600 {
            let deadweight = match each % 2 {
                0 => turning[each / 2 % turning.len()],
                _ => 10 * random.any_size(10, last_below / 10),
            };
            let mut ship = draw_whole(random, *kind, 3, each % 3 == 0);
            put_size(&mut ship, random, deadweight, false);
            out.push((at_rated(&ship), if_exact(deadweight > *last_below)));
        }
    }
}

// Under the common structural rules Capacity stays the deadweight: a trial with 8 % of the lightweight on top is at another one.
fn with_lightweights(random: &mut Random, out: &mut Vec<Trial>) {
    for each in 0..600 {
        let mut ship = draw_whole(random, if each % 2 == 0 { 1 } else { 3 }, 3, each % 3 == 0);
        draw_size(&mut ship, random, false);
        let (power, tonnes, twenty_fifth) = (main_power(&ship) / 100, capacity(&ship) / 10, random.any_size(4, 8_000));
        put(&mut ship, LAYOUT, 2);
        put(&mut ship, LIGHTWEIGHT, 25 * twenty_fifth);
        out.push((on_trial(&ship, power, tonnes), Exact::Index));
        out.push((on_trial(&ship, power, tonnes + 2 * twenty_fifth), Exact::Neither));
    }
}

// Light cargo has a power in f_c, and a general cargo ship one in f_j.
fn with_factors(random: &mut Random, out: &mut Vec<Trial>) {
    for (kind, method) in KINDS.iter().filter(|(kind, _)| *kind == 1 || *kind == 7) {
        for each in 0..300 {
            let mut ship = draw_whole(random, *kind, *method, each % 3 == 0);
            draw_size(&mut ship, random, true);
            out.push((at_rated(&ship), Exact::SpeedAlone));
        }
    }
    out.extend((0..600).map(|each| (at_rated(&draw_whole(random, 8, 2, each % 3 == 0)), Exact::SpeedAlone)));
}

// Powers that a wrong reading takes for the sum of P_ME: without the limiters, of the first engine alone, and of MCR.
fn other_readings(ship: &Block) -> Vec<u64> {
    let with = |field: Field, value: u64| {
        let mut block = *ship;
        put(&mut block, field, value);
        main_power(&block)
    };
    let engines = 0..get(ship, ENGINES) as usize;
    let total: u64 = engines.map(|engine| get(ship, mcr(engine)[0])).sum();
    vec![75 * total / 100, 83 * total / 100, total, with(ENGINES, 1) / 100, with(limit(0), 0) / 100]
}

// Trials at these powers and at the sum of P_ME rounded down and up, which most often is no whole number of kilowatts.
fn at_other_powers(random: &mut Random, out: &mut Vec<Trial>) {
    for (kind, method) in KINDS.iter() {
        for each in 0..200 {
            let mut ship = draw(random, *kind, *method, each % 3 == 0);
            draw_size(&mut ship, random, false);
            let (sum, tonnes) = (main_power(&ship), capacity(&ship) / 10);
            let mut powers = other_readings(&ship);
            powers.extend(&[sum / 100, sum / 100 + 1]);
            for power in powers.into_iter().filter(|power| sum <= 500 * power && 100 * power <= 5 * sum) {
                out.push((on_trial(&ship, power, tonnes), if_exact(100 * power == sum)));
            }
        }
    }
}

// The largest and the smallest figures. Some hulls among the smallest don't hold their volume.
fn at_ends(random: &mut Random, out: &mut Vec<Trial>) {
    let mut ships = Vec::new();
    at_extremes(random, &mut ships);
    let holds = |ship: &Block| get(ship, TYPE) != 8 || box_volume(ship) >= 1_000_000 * get(ship, DISPLACEMENT);
    for ship in ships.iter().filter(|ship| [2, 3].contains(&get(ship, METHOD)) && holds(ship)) {
        let (kind, deadweight) = (get(ship, TYPE), get(ship, DEADWEIGHT));
        let light = 20 * deadweight < 11 * get(ship, CARGO_VOLUME) || 20 * deadweight < 7 * get(ship, GROSS_TONNAGE);
        let scaled = get(ship, METHOD) == 3 && (kind == 4 || deadweight == 100);
        let exact = match (scaled, light || kind == 8) {
            (true, _) => Exact::Neither,
            (_, true) => Exact::SpeedAlone,
            _ => Exact::Index,
        };
        out.push((at_rated(ship), exact));
    }
}

// Ships whose index is a whole number of millionths, so that floor and ceiling are the same. Larger ones are tried at design draught;
// those with a lightweight have one of which 8 % are 1,000 t.
fn at_whole(random: &mut Random, out: &mut Vec<Trial>) {
    let mut ships = Vec::new();
    at_whole_index(random, &mut ships);
    for ship in ships.iter().filter(|ship| get(ship, mcr(0)[0]) == get(ship, mcr(0)[1])) {
        let mut block = *ship;
        put(&mut block, METHOD, 2);
        out.push((at_rated(&block), Exact::Index));
        let kind = get(ship, TYPE);
        if kind == 1 || kind == 3 {
            let less = if get(ship, LIGHTWEIGHT) > 0 { 1_000 } else { 0 };
            let deadweight = random.pick(&[220_000, 350_000, 385_000, 550_000]) - less;
            for (field, value) in &[(METHOD, 3), (DEADWEIGHT, deadweight), (CARGO_VOLUME, if kind == 1 { 20 * deadweight / 11 } else { 0 })] {
                put(&mut block, *field, *value);
            }
            out.push((at_rated(&block), Exact::Index));
        }
    }
}

pub fn at_rated_power(random: &mut Random) -> Vec<Trial> {
    let mut all = Vec::new();
    with_neighbours(random, &mut all);
    at_scales(random, &mut all);
    with_lightweights(random, &mut all);
    with_factors(random, &mut all);
    at_other_powers(random, &mut all);
    at_ends(random, &mut all);
    at_whole(random, &mut all);
    all
}
