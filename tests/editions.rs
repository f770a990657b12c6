// New ships at every threshold of the edition and of rule 19, each with the refusal that the rules' rows give her, 0 where none does;
// and the older thresholds met by new ships, where the reference decides.
use edges::*;
use hulls::*;
use ships::*;

const BYTES: [u64; 7] = [0, 1, 2, 3, 127, 128, 255];

// What rule 19 gives a ship in that edition if she can have an EEDI, and if she can't.
fn by_edition(edition: u64, can: bool) -> u8 {
    match edition {
        0 => 0,
        1 | 2 if can => 0,
        _ => 19,
    }
}

fn changed(ship: &Block, field: Field, value: u64) -> Block {
    let mut block = *ship;
    put(&mut block, field, value);
    sealed(block)
}

// Every byte for one type, and some bytes for every type.
fn at_edition_bytes(random: &mut Random, out: &mut Vec<(Block, u8)>) {
    for byte in 0..256 {
        for kind in (1..9).filter(|kind| BYTES.contains(&byte) || byte % 8 + 1 == *kind) {
            out.push((draw_new(random, kind, byte, byte % 3 == 0), by_edition(byte, true)));
        }
    }
}

// The bytes behind the edition are zero whatever it is, and in layout 1 it is zero itself.
fn at_zeros(random: &mut Random, out: &mut Vec<(Block, u8)>) {
    for byte in BYTES.iter() {
        for kind in 1..9 {
            let ship = draw_new(random, kind, *byte, false);
            (142..144).for_each(|at| out.push((changed(&ship, Field(at, 1), random.from(1, 255)), 16)));
        }
        for (kind, method) in older_kinds() {
            let older = draw(random, kind, method, false);
            out.push((changed(&older, EDITION, *byte), if *byte == 0 { 0 } else { 16 }));
        }
    }
}

// Rule 18 comes first.
fn at_newer_figures(random: &mut Random, out: &mut Vec<(Block, u8)>) {
    for kind in 1..9 {
        for byte in BYTES.iter() {
            let ship = draw_new(random, kind, *byte, false);
            out.push((changed(&ship, LIGHTWEIGHT, 99), 18));
            out.push((changed(&ship, CRANES, 9), 18));
            out.push((changed(&ship, DISPLACEMENT, 99), 18));
        }
    }
}

// A ship with so many engines that can have an EEDI, and has an EEXI.
fn with_engines(random: &mut Random, kind: u64, count: usize) -> Block {
    loop {
        let ship = draw_new(random, kind, 0, random.0 & 3 == 0);
        if get(&ship, ENGINES) == count as u64 {
            return ship;
        }
    }
}

// A limiter in each engine entry. Rule 9 comes first where its limit is wrong, and rule 16 where the entry is unused.
fn at_limiters(ship: &Block, out: &mut Vec<(Block, u8)>) {
    for engine in 0..4 {
        let low = get(ship, mcr(engine)[0]).max(100);
        let unused = engine as u64 >= get(ship, ENGINES);
        let limited = by_edition(get(ship, EDITION), false);
        for (value, rule) in [(99, 9), (100, limited), (low, limited), (low + 1, 9)].iter() {
            out.push((changed(ship, limit(engine), *value), if unused { 16 } else { *rule }));
        }
    }
}

// No source in each engine entry and of the auxiliaries. Rule 10 comes first where a fuel stands there all the same.
fn at_sources(ship: &Block, out: &mut Vec<(Block, u8)>) {
    for engine in 0..5 {
        let unused = engine < 4 && engine as u64 >= get(ship, ENGINES);
        let mut block = *ship;
        put_consumption(&mut block, engine, [0, 0], 0, 3);
        out.push((sealed(block), if unused { 16 } else { by_edition(get(ship, EDITION), false) }));
        out.push((changed(&block, consumption(engine).1, 3), if unused { 16 } else { 10 }));
    }
}

// Each speed method, with nothing else that no EEDI has.
fn at_methods(random: &mut Random, out: &mut Vec<(Block, u8)>) {
    for (kind, method) in kinds() {
        for byte in BYTES.iter().chain(&BYTES) {
            let ship = draw_layout_2(random, kind, method, random.0 & 3 == 0);
            let mut block = as_new(&ship, random, *byte);
            draw_trial(&mut block, random);
            out.push((sealed(block), by_edition(*byte, method == 1)));
        }
    }
}

pub fn at_rule_19(random: &mut Random) -> Vec<(Block, u8)> {
    let mut all = Vec::new();
    at_edition_bytes(random, &mut all);
    at_zeros(random, &mut all);
    at_newer_figures(random, &mut all);
    at_methods(random, &mut all);
    for kind in 1..9 {
        for count in 1..5 {
            for edition in 0..4 {
                let ship = changed(&with_engines(random, kind, count), EDITION, edition);
                at_limiters(&ship, &mut all);
                at_sources(&ship, &mut all);
            }
        }
    }
    all
}

// Light cargo, auxiliary power, whole indexes, the largest and smallest figures, f_i and the caps of Fn and f_j, in either edition.
pub fn at_older_thresholds(random: &mut Random, out: &mut Vec<Block>) {
    let mut older = Vec::new();
    at_light_cargo(random, &mut older);
    at_aux_power(random, &mut older);
    at_whole_index(random, &mut older);
    at_extremes(random, &mut older);
    at_lightweight_ends(random, &mut older);
    at_froude_cap(random, &mut older);
    at_hull_factor_cap(random, &mut older);
    for ship in older.iter().filter(|ship| get(ship, METHOD) == 1) {
        let edition = random.from(1, 2);
        out.push(as_new(ship, random, edition));
    }
}

// Vehicle carriers with light cargo whose index is a whole number of millionths all the same, for they have no f_c.
pub fn at_whole_light_index(random: &mut Random, out: &mut Vec<Block>) {
    let mut whole = Vec::new();
    at_whole_index(random, &mut whole);
    for ship in whole.iter().filter(|ship| get(ship, TYPE) == 7) {
        let light = changed(ship, GROSS_TONNAGE, 3 * get(ship, DEADWEIGHT));
        let edition = random.from(1, 2);
        out.push(as_new(&light, random, edition));
    }
}
