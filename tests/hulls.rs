// Blocks at every threshold of layout 2's own fields, and about the caps of Fn and f_j. The reference decides what each must be
// answered.
use ships::*;

fn newer_fields() -> Vec<Field> {
    let mut all = vec![LIGHTWEIGHT, DISPLACEMENT, CRANES, EDITION, Field(142, 1), Field(143, 1)];
    all.extend(&HULL);
    all.extend(&[Field(188, 4), Field(504, 4)]);
    (0..8).for_each(|number| all.extend(&crane(number)));
    all
}

// Each newer field of a ship of each kind at each end that any rule names, one below and one above it; in layout 1 some of these.
pub fn at_newer_field_ends(random: &mut Random, out: &mut Vec<Block>) {
    let ends = [50, 100, 200, 1_000, 4_000, 10_000, 50_000, 65_536, 200_000, 1_000_000, 1 << 24, 1 << 31];
    let mut values: Vec<u64> = (0..11).chain(ends.iter().flat_map(|end| end - 1..end + 2)).collect();
    values.extend(&[255, 256, 0xffff_ffff]);
    for (kind, method) in kinds().into_iter().filter(|(kind, method)| *method == 1 || *kind == 8) {
        for field in newer_fields() {
            let (older, newer) = (draw(random, kind, method, false), draw_layout_2(random, kind, method, random.0 & 16 == 0));
            for value in values.iter().filter(|value| **value < 1 << (8 * field.1)) {
                let mut block = if random.one_in(8) { older } else { newer };
                put(&mut block, field, *value);
                out.push(sealed(block));
            }
        }
    }
}

// A lightweight at each of its ends, for every type and speed method.
pub fn at_lightweight_ends(random: &mut Random, out: &mut Vec<Block>) {
    for (kind, method) in kinds() {
        for value in [0, 1, 99, 100, 101, 199_999, 200_000, 200_001].iter() {
            for layout in 1..3 {
                let mut block = draw_layout_2(random, kind, method, random.0 & 1 == 0);
                put(&mut block, LAYOUT, layout);
                put(&mut block, LIGHTWEIGHT, *value);
                out.push(sealed(block));
            }
        }
    }
}

fn general_cargo(random: &mut Random) -> Block {
    let method = random.pick(&[1, 2, 4]);
    draw(random, 8, method, random.0 & 3 == 0)
}

// Each hull figure at either end of its field and beside it, the others at their largest: a box of 25,000 m³ and more.
pub fn at_hull_ends(random: &mut Random, out: &mut Vec<Block>) {
    for place in 0..3 {
        let (low, high) = HULL_ENDS[place];
        for value in [low - 1, low, low + 1, high - 1, high, high + 1].iter() {
            for volume in [99, 100, 101, 5_000, 24_000].iter() {
                let mut block = general_cargo(random);
                (0..3).for_each(|other| put(&mut block, HULL[other], HULL_ENDS[other].1));
                put(&mut block, HULL[place], *value);
                put(&mut block, DISPLACEMENT, *volume);
                out.push(sealed(block));
            }
        }
    }
    // A box of 2,000,000 m³, so that the largest volume is met too.
    for volume in [0, 1, 99, 100, 101, 999_999, 1_000_000, 1_000_001, 1_999_999, 2_000_001].iter() {
        let mut block = general_cargo(random);
        (0..3).for_each(|place| put(&mut block, HULL[place], HULL_ENDS[place].1));
        put(&mut block, DISPLACEMENT, *volume);
        out.push(sealed(block));
    }
}

// Volumes of exactly length x breadth x draught and one to either side; every second box is of no whole cubic metres.
pub fn at_full_hulls(random: &mut Random, out: &mut Vec<Block>) {
    for each in 0..300 {
        let ship = general_cargo(random);
        let mut hull = ship;
        for (field, (low, high)) in HULL.iter().zip(&HULL_ENDS) {
            let size = random.any_size(*low, *high);
            put(&mut hull, *field, if each % 2 == 0 { (size / 100 * 100).max(100) } else { size });
        }
        let full = box_volume(&hull) / 1_000_000;
        for volume in full.max(1) - 1..full + 3 {
            let mut block = hull;
            put(&mut block, DISPLACEMENT, volume);
            out.push(sealed(block));
        }
    }
}

// So many cranes with one entry more filled, one fewer, or just as many.
pub fn at_crane_counts(random: &mut Random, out: &mut Vec<Block>) {
    for (kind, method) in kinds().into_iter().filter(|(kind, method)| *method == 1 || *kind == 8) {
        for count in (0..11).chain(255..256) {
            for filled in count - 1.min(count)..count + 2 {
                let mut block = draw_layout_2(random, kind, method, false);
                draw_cranes(&mut block, random, filled.min(8));
                put(&mut block, CRANES, count);
                out.push(sealed(block));
            }
        }
    }
}

// A load or reach of each crane at either end, used and unused.
pub fn at_crane_ends(random: &mut Random, out: &mut Vec<Block>) {
    for place in 0..8 {
        for figure in 0..2 {
            for value in [0, 1, 2, 255, 256, 9_999, 10_000, 10_001, 65_535].iter() {
                for count in [place, place + 1, 8].iter() {
                    let mut block = general_cargo(random);
                    draw_cranes(&mut block, random, *count as u64);
                    put(&mut block, crane(place)[figure], *value);
                    out.push(sealed(block));
                }
            }
        }
    }
}

// Volumes about the one at which Fn is 0.6, as near as whole cubic metres come.
pub fn at_froude_cap(random: &mut Random, out: &mut Vec<Block>) {
    for _ in 0..600 {
        let ship = general_cargo(random);
        let even = volume_at(speed_of(&ship), 0.6) as u64;
        for volume in (even.max(3) - 3..even + 5).filter(|volume| (100..=1_000_000).contains(volume)) {
            let mut block = ship;
            put_hull(&mut block, random, volume);
            out.push(sealed(block));
        }
    }
}

// Lengths about the one at which f_j is 1, as near as hundredths of a metre come: so full is the hull there.
pub fn at_hull_factor_cap(random: &mut Random, out: &mut Vec<Block>) {
    for _ in 0..1_200 {
        let ship = general_cargo(random);
        let volume = get(&ship, DISPLACEMENT) as f64;
        let froude = (0.5144 * speed_of(&ship) / (9.81 * volume.cbrt()).sqrt()).min(0.6);
        let fullness = (0.174 / froude.powf(2.3)).powf(1.0 / 0.3);
        let section = get(&ship, HULL[1]) as f64 * get(&ship, HULL[2]) as f64;
        let even = (1e6 * volume / fullness / section) as u64;
        for length in (even.max(2) - 2..even + 4).filter(|length| (1_000..=50_000).contains(length)) {
            let mut block = ship;
            put(&mut block, HULL[0], length);
            out.push(sealed(block));
        }
    }
}
