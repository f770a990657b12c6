// Every block of the tests of `fleet` and `speeds`, from a fixed seed. What follows from how a block is made, the reference has to find
// too.
use breaks;
use desk::{self, Answer, Speed, SpeedAnswer};
use edges::*;
use editions::*;
use hulls::*;
use rated::*;
use ships::*;

pub const SEED: u64 = 0x9e37_79b9_7f4a_7c15;
// Layouts that there are none of; some have a right first byte.
const NO_LAYOUT: [u64; 6] = [0, 3, 0x100, 0x101, 0x102, 0x200];

// Ships by chance, of every kind.
fn drawn(random: &mut Random, all: &mut Vec<Block>) {
    for (kind, method) in older_kinds() {
        for each in 0..2_500 {
            all.push(draw(random, kind, method, each % 3 == 0));
        }
        for each in 0..if kind == 1 || kind == 3 { 1_600 } else { 100 } {
            all.push(draw_layout_2(random, kind, method, each % 3 == 0));
        }
    }
    for each in 0..22_500 {
        all.push(draw(random, 8, [1, 2, 4][each % 3], each % 4 == 0));
    }
    for each in 0..22_400 {
        all.push(draw_new(random, 1 + each % 8, 1 + each / 8 % 2, each % 3 == 0));
    }
}

fn at_thresholds(random: &mut Random, all: &mut Vec<Block>) {
    at_field_ends(random, all);
    at_imo_ends(random, all);
    for _ in 0..3 {
        at_sizes(random, all);
    }
    at_light_cargo(random, all);
    at_aux_power(random, all);
    at_limits(random, all);
    at_trials(random, all);
    at_largest_trials(random, all);
    at_whole_index(random, all);
    at_extremes(random, all);
    at_newer_field_ends(random, all);
    at_lightweight_ends(random, all);
    at_hull_ends(random, all);
    at_full_hulls(random, all);
    at_crane_counts(random, all);
    at_crane_ends(random, all);
    at_froude_cap(random, all);
    at_hull_factor_cap(random, all);
    at_older_thresholds(random, all);
    at_whole_light_index(random, all);
}

// Ships of which the refusal is known, 0 for none.
fn with_known_refusals(random: &mut Random, all: &mut Vec<Block>) -> Result<(), String> {
    let mut known = breaks::broken(random, 150, 1, &NO_LAYOUT);
    known.extend(breaks::broken(random, 100, 2, &NO_LAYOUT));
    known.extend(at_rule_19(random));
    for (block, rule) in known {
        if desk::read(&block).err().unwrap_or(0) != rule {
            return Err(format!("the reference gives {:?} to a ship that breaks rule {} first, 0 for none", desk::answer(&block), rule));
        }
        all.push(block);
    }
    Ok(())
}

// Trials at rated power and beside it, of which is known what is exact.
fn rated_and_beside(random: &mut Random, all: &mut Vec<Block>) -> Result<(), String> {
    for (block, exact) in at_rated_power(random) {
        let (index, speed) = (desk::answer(&block), desk::speeds(&block));
        let right_index = match index {
            Answer::Exact { .. } => exact == Exact::Index,
            Answer::Near { .. } => exact != Exact::Index,
            Answer::Refused(_) => false,
        };
        let right_speed = match speed {
            SpeedAnswer::Speeds { most: Speed::Exact(_), .. } => exact != Exact::Neither,
            SpeedAnswer::Speeds { .. } => exact == Exact::Neither,
            SpeedAnswer::Refused(_) => false,
        };
        if !right_index || !right_speed {
            return Err(format!("the reference gives {:?} and {:?} to a trial of which is exact: {:?}", index, speed, exact));
        }
        all.push(block);
    }
    Ok(())
}

// All of them, in an order that mixes the kinds.
pub fn blocks(random: &mut Random) -> Result<Vec<Block>, String> {
    let mut all = Vec::new();
    drawn(random, &mut all);
    at_thresholds(random, &mut all);
    damaged(random, 15_000, &mut all);
    random_bytes(random, 10_000, &mut all);
    with_known_refusals(random, &mut all)?;
    rated_and_beside(random, &mut all)?;
    for at in 1..all.len() {
        all.swap(at, random.from(0, at as u64) as usize);
    }
    Ok(all)
}
