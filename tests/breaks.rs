// Ways to break each rule of the refusals' table. Each is written from its row alone and leaves the earlier rules kept,
// so the number that a broken ship must get is known without any reference.
use ships::*;

fn used(block: &Block, random: &mut Random) -> usize {
    random.from(0, get(block, ENGINES).max(1).min(4) - 1) as usize
}

fn break_sizes(block: &mut Block, random: &mut Random, rule: u64) {
    let kind = get(block, TYPE);
    match (rule, kind) {
        (6, _) => put(block, DEADWEIGHT, random.pick(&[0, 99, 600_001, 0xffff_ffff])),
        (7, 7) => put(block, GROSS_TONNAGE, random.pick(&[0, 99, 400_001, 0x8000_0000])),
        (7, _) => put(block, GROSS_TONNAGE, random.pick(&[1, 256, 0x0100_0000])),
        (_, 1) => put(block, CARGO_VOLUME, random.pick(&[0, 99, 1_000_001, 0x8000_0000])),
        _ => put(block, CARGO_VOLUME, random.pick(&[1, 256, 0x0100_0000])),
    }
}

fn break_engine(block: &mut Block, random: &mut Random) {
    let engine = used(block, random);
    let low = get(block, mcr(engine)[0]);
    match random.from(0, 3) {
        0 => put(block, ENGINES, random.pick(&[0, 5, 255])),
        1 => put(block, mcr(engine)[0], random.pick(&[0, 99, 120_001])),
        2 => put(block, mcr(engine)[1], random.pick(&[0, 99, 120_001])),
        _ => put(block, limit(engine), random.pick(&[1, 99, low + 1, 0xffff_ffff])),
    }
}

fn break_consumption(block: &mut Block, random: &mut Random) {
    let engine = if random.one_in(2) { 4 } else { used(block, random) };
    let (ends, fuel, source) = consumption(engine);
    let told = random.from(1, 2);
    match random.from(0, 5) {
        0 => put(block, source, random.pick(&[0, 4, 255])),
        1 => put_consumption(block, engine, [random.pick(&[0, 499]), 2_000], 1, told),
        2 => put_consumption(block, engine, [2_000, random.pick(&[4_001, 65_535])], 1, told),
        3 => put_consumption(block, engine, [2_000, 2_000], random.pick(&[0, 9, 255]), told),
        // The empty consumption cell of the first release.
        4 => put_consumption(block, engine, [0, 0], 3, 1),
        _ => {
            put_consumption(block, engine, [0, 0], 0, 3);
            put(block, random.pick(&[ends[0], ends[1], fuel]), 1);
        }
    }
}

fn break_auxiliary(block: &mut Block, random: &mut Random) {
    let (method, power) = random.pick(&[(0, 0), (3, 0), (1, 1), (1, 50_000), (2, 0), (2, 50_001), (2, 0x8000_0001)]);
    put(block, AUX_METHOD, method);
    put(block, TABLE_POWER, power);
}

fn break_speed(block: &mut Block, random: &mut Random) {
    let end = random.pick(&SPEED);
    match (get(block, METHOD), get(block, TYPE)) {
        (_, 2) | (_, 5) | (_, 6) | (_, 7) | (_, 8) if random.one_in(3) => put(block, METHOD, 3),
        _ if random.one_in(3) => put(block, METHOD, random.pick(&[0, 5, 255])),
        (4, _) => put(block, end, random.pick(&[1, 500, 0x0100_0000])),
        _ => put(block, end, random.pick(&[0, 499, 6_001, 0xffff_ffff])),
    }
}

fn break_range(block: &mut Block, random: &mut Random) {
    let engine = used(block, random);
    let power = random.from(101, 119_999);
    let method = get(block, METHOD);
    match random.from(0, 3) {
        0 => put_consumption(block, random.pick(&[4, engine]), [2_000, 1_999], 1, 1),
        1 if method != 4 => {
            // A general cargo ship has no range of speed even where it is declared.
            let above = (method == 1 && get(block, TYPE) != 8) || random.one_in(2);
            put(block, SPEED[0], if above { 1_501 } else { 1_500 });
            put(block, SPEED[1], if above { 1_500 } else { 1_501 });
        }
        choice => {
            let above = method == 1 || choice == 2;
            put(block, mcr(engine)[0], power);
            put(block, mcr(engine)[1], if above { power - 1 } else { power + 1 });
            put(block, limit(engine), 0);
        }
    }
}

fn break_trial(block: &mut Block, random: &mut Random) {
    let (power, size) = (main_power(block), capacity(block));
    match get(block, METHOD) {
        1 | 4 => put(block, random.pick(&[TRIAL_POWER, TRIAL_DEADWEIGHT]), random.pick(&[1, 256, 0x0100_0000])),
        2 if random.one_in(2) => put(block, TRIAL_DEADWEIGHT, random.pick(&[1, 0x0100_0000])),
        3 if random.one_in(2) => put(block, TRIAL_DEADWEIGHT, random.pick(&[0, (size - 1) / 50, size / 2 + 1, 0xffff_ffff])),
        _ => put(block, TRIAL_POWER, random.pick(&[0, 600_001, 0xffff_ffff, (power - 1) / 500, power / 20 + 1])),
    }
}

fn break_zeros(block: &mut Block, random: &mut Random) {
    let count = get(block, ENGINES).min(4) as usize;
    let engine = 20 * used(block, random);
    let unused = random.from(52 + 20 * count as u64, 507) as usize;
    let at = match get(block, LAYOUT) {
        1 => random.pick(&[49, 50, 51, 132, 507, unused, unused.min(131), 70 + engine, 71 + engine]),
        _ => random.pick(&[49, 50, 51, 142, 143, 188, 507, unused.max(188), unused.min(131), 70 + engine, 71 + engine]),
    };
    block[at] = random.from(1, 255) as u8;
}

fn break_lightweight(block: &mut Block, random: &mut Random) {
    let wrong = match get(block, TYPE) {
        1 | 3 => random.pick(&[1, 99, 200_001, 0xffff_ffff]),
        _ => random.pick(&[1, 100, 200_000, 0x0100_0000]),
    };
    put(block, LIGHTWEIGHT, wrong);
}

fn break_cranes(block: &mut Block, random: &mut Random) {
    let (count, figure) = (random.from(1, 8), random.from(0, 1) as usize);
    let unused = get(block, CRANES).min(7);
    match random.from(0, 3) {
        0 => put(block, CRANES, random.pick(&[9, 255])),
        // Right cranes, but on a ship that can have none.
        1 if get(block, TYPE) != 8 => draw_cranes(block, random, count),
        1 | 2 => {
            draw_cranes(block, random, count);
            put(block, crane(random.from(0, count - 1) as usize)[figure], random.pick(&[0, 10_001, 65_535]));
        }
        _ => {
            draw_cranes(block, random, unused);
            put(block, crane(random.from(unused, 7) as usize)[figure], random.pick(&[1, 10_000, 65_535]));
        }
    }
}

fn break_hull(block: &mut Block, random: &mut Random) {
    let place = random.from(0, 3) as usize;
    let too_full = box_volume(block) / 1_000_000 + 1;
    match (get(block, TYPE), place) {
        (8, 3) => put(block, DISPLACEMENT, random.pick(&[0, 99, 1_000_001, too_full, 0xffff_ffff])),
        (8, _) => {
            let (low, high) = HULL_ENDS[place];
            put(block, HULL[place], random.pick(&[0, low - 1, high + 1, 0xffff_ffff]));
        }
        (_, 3) => put(block, DISPLACEMENT, random.pick(&[1, 100, 0x0100_0000])),
        _ => put(block, HULL[place], random.pick(&[1, 1_000, 0x0100_0000])),
    }
}

// An edition that there is none of, or the EEDI of a ship with a limiter, without a consumption or with a speed that isn't declared.
fn break_edition(block: &mut Block, random: &mut Random) {
    let engine = used(block, random);
    let low = get(block, mcr(engine)[0]);
    put(block, EDITION, random.from(1, 2));
    match random.from(0, 2) {
        0 => put(block, EDITION, random.pick(&[3, 127, 128, 255])),
        // The other methods break the rule by themselves; a limiter would come between their ship and her trial.
        _ if get(block, METHOD) != 1 => {}
        1 => put(block, limit(engine), random.from(100, low)),
        _ => put_consumption(block, random.pick(&[4, engine]), [0, 0], 0, 3),
    }
}

fn break_type(block: &mut Block, random: &mut Random) {
    match (get(block, LAYOUT), get(block, TYPE)) {
        (1, _) => put(block, TYPE, random.pick(&[0, 8, 255])),
        (_, 8) if random.one_in(2) => put(block, LAYOUT, 1),
        _ => put(block, TYPE, random.pick(&[0, 9, 255])),
    }
}

// The three ways to break rule 18, as one type: rustc 1.63 doesn't find it by itself.
const BREAK_BUILD: [fn(&mut Block, &mut Random); 3] = [break_lightweight, break_cranes, break_hull];

// Breaks rule 3 to 16, 18 or 19; rule 2 is broken after sealing, rule 1 by cutting the file.
fn break_rule(block: &mut Block, random: &mut Random, rule: u64, no_layout: &[u64]) {
    let imo = get(block, IMO);
    match rule {
        3 => put(block, LAYOUT, random.pick(no_layout)),
        4 => put(block, IMO, random.pick(&[imo / 10 * 10 + (imo + random.0 % 9 + 1) % 10, imo_of(imo / 100), imo_of(imo)])),
        5 => break_type(block, random),
        6 | 7 | 8 => break_sizes(block, random, rule),
        9 => break_engine(block, random),
        10 => break_consumption(block, random),
        11 => break_auxiliary(block, random),
        12 => put(block, ICE, random.pick(&[3, 4, 255])),
        13 => break_speed(block, random),
        14 => break_range(block, random),
        15 => break_trial(block, random),
        16 => break_zeros(block, random),
        18 => random.pick(&BREAK_BUILD)(block, random),
        _ => break_edition(block, random),
    }
}

// Ships of a layout that break one rule, and ships that break two: the first one's number is the answer. What layout 1 could
// break of rules 18 and 19, rule 16 refuses.
pub fn broken(random: &mut Random, each: usize, layout: u64, no_layout: &[u64]) -> Vec<(Block, u8)> {
    let rules: Vec<u64> = (2..17).chain(if layout == 1 { 0..0 } else { 18..20 }).collect();
    let mut all = Vec::new();
    for (place, first) in rules.iter().enumerate() {
        for second in &rules[place..] {
            for _ in 0..each {
                let mut block = draw_any(random, layout);
                if second > first {
                    break_rule(&mut block, random, *second, no_layout);
                }
                if *first > 2 {
                    break_rule(&mut block, random, *first, no_layout);
                }
                seal(&mut block);
                if *first == 2 {
                    let at = random.from(508, 511) as usize;
                    block[at] ^= random.from(1, 255) as u8;
                }
                all.push((block, *first as u8));
            }
        }
    }
    all
}
