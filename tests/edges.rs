// Blocks at every threshold of the fields that both layouts have, and damaged ones. The reference decides what each must be answered.
use ships::*;

fn fields() -> Vec<Vec<Field>> {
    let mut all: Vec<Vec<Field>> = [
        LAYOUT, TYPE, METHOD, IMO, DEADWEIGHT, GROSS_TONNAGE, CARGO_VOLUME, SPEED[0], SPEED[1], TRIAL_POWER, TRIAL_DEADWEIGHT,
        AUX_METHOD, ICE, ENGINES, AUX_SOURCE, TABLE_POWER, AUX_SFC[0], AUX_SFC[1], AUX_FUEL, Field(49, 3), Field(132, 4), Field(504, 4),
    ].iter().map(|field| vec![*field]).collect();
    // Both ends of a range together, so that a ship at the very end of a field can be accepted.
    all.push(SPEED.to_vec());
    all.push(AUX_SFC.to_vec());
    for engine in 0..4 {
        let (sfc, fuel, source) = consumption(engine);
        let power = mcr(engine);
        for field in [power[0], power[1], limit(engine), sfc[0], sfc[1], fuel, source, Field(source.0 + 1, 2)].iter() {
            all.push(vec![*field]);
        }
        all.push(power.to_vec());
        all.push(sfc.to_vec());
    }
    all
}

// Each field of a ship of each kind at each end that any rule names, one below and one above it.
pub fn at_field_ends(random: &mut Random, out: &mut Vec<Block>) {
    let ends = [100, 500, 4_000, 6_000, 50_000, 120_000, 400_000, 600_000, 1_000_000, 65_536, 1 << 24, 1 << 31];
    let mut values: Vec<u64> = (0..10).chain(ends.iter().flat_map(|end| end - 1..end + 2)).collect();
    values.extend(&[255, 256, 0xffff_ffff]);
    for (kind, method) in kinds() {
        for together in fields() {
            let ship = draw(random, kind, method, random.0 & 16 == 0);
            for value in values.iter().filter(|value| **value < 1 << (8 * together[0].1)) {
                let mut block = ship;
                together.iter().for_each(|field| put(&mut block, *field, *value));
                out.push(sealed(block));
            }
        }
    }
}

// IMO numbers with every last digit, and right check digits outside the seven digits.
pub fn at_imo_ends(random: &mut Random, out: &mut Vec<Block>) {
    let ship = draw(random, 1, 1, false);
    let mut numbers = vec![imo_of(99_999), imo_of(100_000), imo_of(999_999), imo_of(1_000_000), imo_of(1_234_567), imo_of(0), 9_999_999, 10_000_000];
    for _ in 0..60 {
        let six = random.from(100_000, 999_999);
        numbers.extend(10 * six..10 * six + 10);
        numbers.push(imo_of(random.from(1, 99_999)));
        numbers.push(imo_of(random.from(1_000_000, 99_999_999)));
    }
    for number in numbers {
        let mut block = ship;
        put(&mut block, IMO, number);
        out.push(sealed(block));
    }
}

// Deadweights at which k, a cap or the speed margin changes; V_avg passes 20 knots where 5 % of it is one knot.
fn turning_sizes(kind: u64) -> Vec<u64> {
    let mut sizes = vec![100, 80_000, 95_000, 100_000, 120_000, 200_000, 600_000];
    let law: [(f64, f64); 8] = [
        (10.6585, 0.02706), (7.4462, 0.07604), (8.1358, 0.05383), (3.2395, 0.18294), (1.0600, 0.31518), (8.1391, 0.05378), (16.6773, 0.01802),
        (2.4538, 0.18832),
    ];
    let (a, c) = law[kind as usize - 1];
    sizes.push((20.0 / a).powf(1.0 / c).min(500_000.0) as u64);
    sizes
}

pub fn at_sizes(random: &mut Random, out: &mut Vec<Block>) {
    for (kind, method) in kinds() {
        for size in turning_sizes(kind) {
            for deadweight in size - 1..size + 2 {
                let mut block = draw(random, kind, method, random.0 & 1 == 0);
                put(&mut block, DEADWEIGHT, deadweight);
                draw_trial(&mut block, random);
                out.push(sealed(block));
            }
        }
    }
}

// Deadweight to volume of 0.55 and to gross tonnage of 0.35 exactly, and as near as whole numbers come.
pub fn at_light_cargo(random: &mut Random, out: &mut Vec<Block>) {
    for (kind, method) in kinds().into_iter().filter(|(kind, _)| *kind == 1 || *kind == 7) {
        let (field, over, under) = if kind == 1 { (CARGO_VOLUME, 11, 20) } else { (GROSS_TONNAGE, 7, 20) };
        for _ in 0..40 {
            let n = random.any_size(15, 19_000);
            for off in [(0, 0), (0, 1), (1, 0), (0, 2), (2, 0), (1, 1)].iter() {
                let mut block = draw(random, kind, method, random.0 & 1 == 0);
                put(&mut block, DEADWEIGHT, over * n + 1 - off.0);
                put(&mut block, field, under * n + 1 - off.1);
                draw_trial(&mut block, random);
                out.push(sealed(block));
            }
        }
    }
}

// So many engines with that total MCR, limited or not.
fn put_total(block: &mut Block, random: &mut Random, total: u64, count: u64) {
    put(block, ENGINES, count);
    block[52..132].iter_mut().for_each(|byte| *byte = 0);
    for engine in 0..count as usize {
        let power = if engine == 0 { total - 1_234 * (count - 1) } else { 1_234 };
        put_both(block, mcr(engine), power);
        put(block, limit(engine), if random.one_in(2) { random.from(100, power) } else { 0 });
        let sfc = random.from(1_500, 2_500);
        put_consumption(block, engine, [sfc, sfc], 3, 1);
    }
}

// Total MCR about 10,000 kW, where the rule for the auxiliaries changes.
pub fn at_aux_power(random: &mut Random, out: &mut Vec<Block>) {
    for (kind, method) in kinds() {
        for total in 9_997..10_004 {
            for count in 1..5 {
                let mut block = draw(random, kind, method, false);
                put_total(&mut block, random, total, count);
                draw_trial(&mut block, random);
                if method == 1 && random.one_in(3) {
                    let high = get(&block, mcr(0)[0]) + random.from(0, 10);
                    put(&mut block, mcr(0)[1], high);
                }
                put(&mut block, AUX_METHOD, 1);
                put(&mut block, TABLE_POWER, 0);
                out.push(sealed(block));
            }
        }
    }
}

// Limits at both ends of the field, and about the one where 83 % of the limit is 75 % of MCR.
pub fn at_limits(random: &mut Random, out: &mut Vec<Block>) {
    for (kind, method) in kinds() {
        for _ in 0..12 {
            let ship = draw(random, kind, method, method == 1);
            let power = get(&ship, mcr(0)[0]);
            let even = 75 * power / 83;
            for value in [0, 1, 99, 100, 101, even - 1, even, even + 1, even + 2, power - 1, power, power + 1].iter() {
                let mut block = ship;
                put(&mut block, limit(0), *value);
                out.push(sealed(block));
            }
        }
    }
}

// Trial power and trial deadweight about five times the ship's own and a fifth of it.
pub fn at_trials(random: &mut Random, out: &mut Vec<Block>) {
    for (kind, method) in kinds().into_iter().filter(|(_, method)| *method == 2 || *method == 3) {
        for _ in 0..30 {
            let mut ship = draw(random, kind, method, random.0 & 1 == 0);
            if random.one_in(2) {
                // Whole kilowatts and tonnes, so that the fivefold is met exactly.
                put_both(&mut ship, mcr(0), 80 * random.from(2, 1_500));
                put(&mut ship, limit(0), 0);
                put(&mut ship, ENGINES, 1);
                ship[72..132].iter_mut().for_each(|byte| *byte = 0);
                put(&mut ship, DEADWEIGHT, 50 * random.from(2, 12_000));
                draw_trial(&mut ship, random);
            }
            let (power, size) = (main_power(&ship), capacity(&ship));
            let ends = [(TRIAL_POWER, power / 20), (TRIAL_POWER, power / 500), (TRIAL_DEADWEIGHT, size / 2), (TRIAL_DEADWEIGHT, size / 50)];
            for (field, figure) in ends.iter() {
                for value in figure - 1.min(*figure)..figure + 3 {
                    let mut block = ship;
                    put(&mut block, TRIAL_DEADWEIGHT, if method == 3 { size / 10 } else { 0 });
                    put(&mut block, *field, value);
                    out.push(sealed(block));
                }
            }
        }
    }
}

fn damage(block: &mut Block, random: &mut Random, bytes: u64) {
    for _ in 0..bytes {
        let at = random.from(0, 511) as usize;
        let at = if random.one_in(2) { at } else { at % 188 };
        block[at] ^= random.from(1, 255) as u8;
    }
}

// Damage that leaves both sums as they were: one more, two fewer, one more.
fn hidden_damage(block: &mut Block, random: &mut Random) {
    let at = random.from(0, 505) as usize % if random.one_in(4) { 506 } else { 130 };
    if block[at] < 255 && block[at + 1] > 1 && block[at + 2] < 255 {
        block[at] += 1;
        block[at + 1] -= 2;
        block[at + 2] += 1;
    }
}

pub fn damaged(random: &mut Random, count: usize, out: &mut Vec<Block>) {
    for number in 0..count as u64 {
        let mut block = draw_any(random, 1 + number % 2);
        match random.from(0, 7) {
            0 | 1 => damage(&mut block, random, 1),
            2 => { let bytes = random.from(2, 40); damage(&mut block, random, bytes) }
            3 => hidden_damage(&mut block, random),
            // Two neighbours changed places: only the second sum sees it.
            4 => { let at = random.from(0, 186) as usize; block.swap(at, at + 1) }
            5 => { damage(&mut block, random, 1); seal(&mut block) }
            6 => { let bytes = random.from(2, 6); damage(&mut block, random, bytes); seal(&mut block) }
            // So many set bytes that the first sum passes 65,536.
            _ => { block[188..508].iter_mut().for_each(|byte| *byte = 255); seal(&mut block) }
        }
        out.push(block);
    }
}

// Wholly random bytes; sealed ones too, some with the first fields right so that later rules are reached.
pub fn random_bytes(random: &mut Random, count: usize, out: &mut Vec<Block>) {
    for number in 0..count as u64 {
        let mut block = [0; 512];
        block.iter_mut().for_each(|byte| *byte = random.next() as u8);
        let ship = draw_any(random, 1 + number % 2);
        let right = random.pick(&[0, 0, 2, 4, 8, 12, 16, 20, 52, 72, 132, 144, 176, 188]);
        block[..right].copy_from_slice(&ship[..right]);
        // Layout 2's fields, with nothing behind them.
        if right > 20 && random.one_in(2) {
            block[right.max(188)..508].iter_mut().for_each(|byte| *byte = 0);
        }
        if !random.one_in(3) {
            seal(&mut block);
        }
        out.push(block);
    }
}

// Declared ships whose index is a whole number of millionths, so that floor and ceiling are the same; and one kW beside.
pub fn at_whole_index(random: &mut Random, out: &mut Vec<Block>) {
    for kind in 1..8 {
        for _ in 0..150 {
            let mut block = draw(random, kind, 1, false);
            let deadweight = random.pick(&[100, 1_000, 10_000, 35_000, 55_000, 77_000]);
            put(&mut block, DEADWEIGHT, deadweight);
            // Ratios of 0.55 and 0.35 exactly where the deadweight allows it.
            put(&mut block, CARGO_VOLUME, if kind == 1 { (20 * deadweight / 11).max(100) } else { 0 });
            put(&mut block, GROSS_TONNAGE, if kind == 7 { (20 * deadweight / 7).max(100) } else { 0 });
            put_both(&mut block, SPEED, random.pick(&[500, 625, 800, 1_000, 1_250, 2_000, 2_500]));
            put_total(&mut block, random, 10_000, 1);
            put_both(&mut block, mcr(0), 9_240 * random.from(1, 12));
            put(&mut block, limit(0), 0);
            put_consumption(&mut block, 0, [2_000, 2_000], random.from(1, 8), 2);
            put_consumption(&mut block, 4, [1_000, 1_000], random.from(1, 8), 2);
            put(&mut block, AUX_METHOD, 2);
            put(&mut block, TABLE_POWER, 4_620 * random.from(1, 10));
            out.push(sealed(block));
            if (kind == 1 || kind == 3) && deadweight > 1_100 {
                out.push(with_lightweight(block));
            }
            let power = get(&block, mcr(0)[0]);
            put(&mut block, mcr(0)[1], power + 1);
            out.push(sealed(block));
        }
    }
}

// The same index with f_i: 1,000 t less of deadweight, and a lightweight of which 8 % are 1,000 t.
fn with_lightweight(mut block: Block) -> Block {
    let deadweight = get(&block, DEADWEIGHT) - 1_000;
    let volume = if get(&block, TYPE) == 1 { 20 * deadweight / 11 } else { 0 };
    for (field, value) in &[(LAYOUT, 2), (LIGHTWEIGHT, 12_500), (DEADWEIGHT, deadweight), (CARGO_VOLUME, volume)] {
        put(&mut block, *field, *value);
    }
    sealed(block)
}

// Ships with every figure at one of its ends: the largest and the smallest numbers that can come up.
pub fn at_extremes(random: &mut Random, out: &mut Vec<Block>) {
    for (kind, method) in kinds() {
        for _ in 0..60 {
            let mut block = draw(random, kind, method, false);
            put(&mut block, DEADWEIGHT, random.pick(&[100, 600_000]));
            put(&mut block, CARGO_VOLUME, if kind == 1 { random.pick(&[100, 1_000_000]) } else { 0 });
            put(&mut block, GROSS_TONNAGE, if kind == 7 { random.pick(&[100, 400_000]) } else { 0 });
            put_both(&mut block, SPEED, if method == 4 { 0 } else { random.pick(&[500, 6_000]) });
            let (power, sfc) = (random.pick(&[100, 120_000]), random.pick(&[500, 4_000]));
            put(&mut block, ENGINES, random.pick(&[1, 4]));
            block[52..132].iter_mut().for_each(|byte| *byte = 0);
            for engine in 0..get(&block, ENGINES) as usize {
                put_both(&mut block, mcr(engine), power);
                put(&mut block, limit(engine), random.pick(&[0, 0, 100, power]));
                put_consumption(&mut block, engine, [sfc, sfc], random.pick(&[1, 7]), 1);
            }
            put_consumption(&mut block, 4, [sfc, sfc], random.pick(&[1, 7]), 1);
            put(&mut block, AUX_METHOD, 2);
            put(&mut block, TABLE_POWER, random.pick(&[1, 50_000]));
            put_extreme_trial(&mut block, random);
            if kind == 8 {
                put_extreme_hull(&mut block, random);
            }
            out.push(sealed(block));
        }
    }
}

// A trial at a fifth or five times of the ship's power and Capacity.
fn put_extreme_trial(block: &mut Block, random: &mut Random) {
    let (power, size, method) = (main_power(block), capacity(block), get(block, METHOD));
    let trial = random.pick(&[(power + 499) / 500, (power / 20).min(600_000)]);
    put(block, TRIAL_POWER, if method == 2 || method == 3 { trial } else { 0 });
    put(block, TRIAL_DEADWEIGHT, if method == 3 { random.pick(&[(size + 49) / 50, size / 2]) } else { 0 });
}

// The longest, broadest and deepest hull or the shortest, narrowest and shallowest that carries the volume; all cranes or none.
fn put_extreme_hull(block: &mut Block, random: &mut Random) {
    for (field, (low, high)) in HULL.iter().zip(&HULL_ENDS) {
        put(block, *field, if random.one_in(2) { *low } else { *high });
    }
    let full = (box_volume(block) / 1_000_000).max(100).min(1_000_000);
    put(block, DISPLACEMENT, random.pick(&[100, full]));
    let (figure, count) = (random.pick(&[1, 10_000]), random.pick(&[0, 1, 8]));
    put_cranes(block, &vec![[figure, figure]; count]);
}

// Trial power at the end of its field, which only ships of more than 120,000 kW come near.
pub fn at_largest_trials(random: &mut Random, out: &mut Vec<Block>) {
    for (kind, method) in kinds().into_iter().filter(|(_, method)| *method == 2 || *method == 3) {
        for count in 2..5 {
            for power in 599_998..600_003 {
                let mut block = draw(random, kind, method, false);
                put_total(&mut block, random, 10_000, count);
                for engine in 0..count as usize {
                    put_both(&mut block, mcr(engine), random.from(100_000, 120_000));
                    put(&mut block, limit(engine), 0);
                }
                put(&mut block, TRIAL_POWER, power);
                out.push(sealed(block));
            }
        }
    }
}
