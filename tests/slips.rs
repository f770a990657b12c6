// The coaster, ship S under the common structural rules, new ships and trials at rated power as a desk would have them that reads one
// rule wrongly: each such line must be caught, and the line of the right reading must not.
use desk;
use hold::{self, misread, Lines};
use ships::*;

// How a desk reads the coaster of ships.rs, whose index is followed by hand here: 3,000 kW x 180 g x 3.114 and 200 kW x 200 g x 3.206.
#[derive(Clone, Copy)]
struct Reading {
    knots: f64,
    // The speed that Fn goes by, and the caps of Fn and of f_j.
    froude_knots: f64,
    froude_cap: f64,
    cap: f64,
    fullness: f64,
    // What f_j multiplies besides the main engines' emissions.
    besides: f64,
    // What the cranes add to the Capacity.
    tonnes: f64,
}

impl Reading {
    fn index(&self) -> f64 {
        let froude = (0.5144 * self.froude_knots / (9.81f64 * 20.0).sqrt()).min(self.froude_cap);
        let factor = (0.174 / (froude.powf(2.3) * self.fullness.powf(0.3))).min(self.cap);
        let grams = factor * (1_681_560.0 + self.besides) + 128_240.0 - self.besides;
        1e6 * grams / ((5_500.0 + self.tonnes) * self.knots)
    }
}

// Cranes of 40 t at 25 m and of 60 t at 20 m add 0.0519 x 1,000 + 32.11 = 84.01 t and 0.0519 x 1,200 + 32.11 = 94.39 t.
fn with_cranes(mut block: Block) -> Block {
    put_cranes(&mut block, &[[400, 250], [600, 200]]);
    sealed(block)
}

// A trial of 12.00 knots at half of P_ME makes 12 times the cube root of 2.
fn on_trial() -> Block {
    let mut block = coaster(1_200);
    put(&mut block, METHOD, 2);
    put(&mut block, TRIAL_POWER, 1_500);
    sealed(block)
}

fn right(knots: f64, tonnes: f64) -> Reading {
    Reading { knots, froude_knots: knots, froude_cap: 0.6, cap: 1.0, fullness: 8_000.0 / 10_546.2, besides: 0.0, tonnes }
}

// A ship, her index by the right reading, and by wrong ones.
type Indexes = (Block, f64, Vec<(&'static str, f64)>);

fn coasters() -> Vec<Indexes> {
    let (slow, middle, quick, trial) = (right(10.0, 0.0), right(14.0, 178.4), right(18.0, 0.0), right(12.0 * 2f64.cbrt(), 0.0));
    let added = |tonnes: f64| Reading { tonnes, ..middle }.index();
    let full = |fullness: f64| Reading { fullness, ..middle }.index();
    vec![
        (coaster(1_000), slow.index(), vec![("f_j above 1", Reading { cap: 9.0, ..slow }.index())]),
        (coaster(1_800), quick.index(), vec![
            ("Fn above 0.6", Reading { froude_cap: 9.0, ..quick }.index()),
            ("f_j of 1 where Fn is above 0.6", Reading { froude_cap: 0.1, ..quick }.index()),
        ]),
        (on_trial(), trial.index(), vec![
            ("Fn from the trial's speed", Reading { froude_knots: 12.0, ..trial }.index()),
            ("the index from the trial's speed", Reading { knots: 12.0, ..trial }.index()),
        ]),
        (with_cranes(coaster(1_400)), middle.index(), vec![
            ("no f_j", Reading { froude_cap: 0.1, ..middle }.index()),
            ("f_j on the auxiliaries too", Reading { besides: 128_240.0, ..middle }.index()),
            ("f_j on the auxiliaries alone", Reading { besides: 128_240.0 - 1_681_560.0, ..middle }.index()),
            ("Fn of metres a second", Reading { froude_knots: 14.0 / 0.5144, ..middle }.index()),
            ("Cb upside down", full(10_546.2 / 8_000.0)),
            ("Cb of 1", full(1.0)),
            ("no f_l", added(0.0)),
            ("the first crane only", added(84.01)),
            ("the second crane only", added(94.39)),
            ("32.11 once for all cranes", added(146.29)),
            ("32.11 left out", added(114.18)),
            ("loads and reaches in tenths", added(100.0 * 114.18 + 64.22)),
            ("all loads times all reaches", added(0.0519 * 100.0 * 45.0 + 64.22)),
            ("what the cranes add, taken off", added(-178.4)),
        ]),
    ]
}

// Ship S with a lightweight of 10,000 t: f_i is 1.016.
fn bulk_carrier() -> Indexes {
    let mut block = ship_s();
    put(&mut block, LAYOUT, 2);
    put(&mut block, LIGHTWEIGHT, 10_000);
    let index = |factor: f64| 1e6 * 3_619_600.0 / (50_000.0 * 14.0 * factor);
    let wrong = vec![
        ("no f_i", index(1.0)),
        ("f_i over the lightweight", index(1.0 + 0.08 * 5.0)),
        ("f_i of the whole lightweight", index(1.2)),
        ("f_i of 8 % without the lightweight", index(1.08)),
        ("f_i in the numerator", index(1.0 / 1.016)),
    ];
    (sealed(block), index(1.016), wrong)
}

// Of S: 3,363,120 g/h by her main engine at 6,000 kW and 256,480 by her auxiliaries, over 50,000 t x 14 knots.
const S_INDEX: f64 = 1e6 * 3_619_600.0 / 700_000.0;

// The index of S with that P_ME in kW.
fn s_at(kilowatts: f64) -> f64 {
    1e6 * (kilowatts * 180.0 * 3.114 + 256_480.0) / 700_000.0
}

// New ships. S in class IA has f_m in the amended edition (2) and not in the first (1); the vehicle carrier, 5,397,340 g/h over 20,000 t
// x 18 knots, has f_c 1 in both; the light bulk carrier, S with R 0.5, keeps hers, and the coaster f_j and f_l.
fn new_ships() -> Vec<Indexes> {
    let s = |class: u64, edition: u64| in_edition(s_with(&[(ICE, class)]), edition);
    let vehicle = 1e6 * 5_397_340.0 / 360_000.0;
    let (vehicle_factor, light_factor) = (1.05f64.powf(0.8), 0.5f64.powf(-0.15));
    let mut iced_vehicle = vehicle_carrier(2);
    put(&mut iced_vehicle, ICE, 1);
    let light = s_with(&[(CARGO_VOLUME, 100_000)]);
    let structural = s_with(&[(LIGHTWEIGHT, 10_000)]);
    let lifting = right(14.0, 178.4);
    vec![
        (s(0, 1), S_INDEX, vec![("83 % of MCR in an EEDI", s_at(6_640.0)), ("f_m without a class in an EEDI", S_INDEX / 1.05)]),
        (s(1, 1), S_INDEX, vec![("f_m in the first edition", S_INDEX / 1.05)]),
        (s(2, 1), S_INDEX, vec![("f_m of IC in the first edition", S_INDEX / 1.05)]),
        (s(1, 2), S_INDEX / 1.05, vec![("no f_m in the amended edition", S_INDEX), ("f_m twice", S_INDEX / 1.05 / 1.05)]),
        (s(2, 2), S_INDEX, vec![("f_m of IC in the amended edition", S_INDEX / 1.05)]),
        (s(1, 0), S_INDEX / 1.05, vec![("no f_m in the EEXI of layout 2", S_INDEX)]),
        (vehicle_carrier(1), vehicle, vec![("vehicle carriers' f_c in the first edition", vehicle / vehicle_factor)]),
        (vehicle_carrier(2), vehicle, vec![
            ("vehicle carriers' f_c in the amended edition", vehicle / vehicle_factor),
            ("vehicle carriers' f_c upside down in an EEDI", vehicle * vehicle_factor),
        ]),
        (sealed(iced_vehicle), vehicle / 1.05, vec![
            ("f_c in place of f_m", vehicle / vehicle_factor),
            ("f_c beside f_m in an EEDI", vehicle / vehicle_factor / 1.05),
        ]),
        (vehicle_carrier(0), vehicle / vehicle_factor, vec![("no f_c in the EEXI of layout 2", vehicle)]),
        (in_edition(light, 1), S_INDEX / light_factor, vec![("no light-cargo f_c in the first edition", S_INDEX)]),
        (in_edition(light, 2), S_INDEX / light_factor, vec![("no light-cargo f_c in the amended edition", S_INDEX)]),
        (in_edition(structural, 1), S_INDEX / 1.016, vec![("no f_i in an EEDI", S_INDEX)]),
        (in_edition(with_cranes(coaster(1_400)), 2), lifting.index(), vec![
            ("no f_j in an EEDI", Reading { froude_cap: 0.1, ..lifting }.index()),
            ("no f_l in an EEDI", Reading { tonnes: 0.0, ..lifting }.index()),
        ]),
    ]
}

fn line(index: f64) -> String {
    format!("0 9074729 {} {}", index.floor(), index.ceil())
}

fn bounds(lower: u64, upper: u64) -> String {
    format!("0 9074729 {} {}", lower, upper)
}

fn refused(rule: u64) -> String {
    format!("0 refused {}", rule)
}

// With f_c 1 the vehicle carrier's EEDI, 14.9926111 g, is rounded down and up and has no other enclosure.
fn wide_bounds() -> Vec<Lines> {
    let of = |edition: u64| {
        let wrong = vec![
            ("an EEDI's lower bound one less", bounds(14_992_610, 14_992_612)),
            ("an EEDI's upper bound one more", bounds(14_992_611, 14_992_613)),
        ];
        (vehicle_carrier(edition), bounds(14_992_611, 14_992_612), wrong)
    };
    vec![of(1), of(2)]
}

// Without a source the auxiliaries have 400 x 215 x 3.114 = 267,804 g/h, the main engine 6,000 x 190 x 3.114 = 3,549,960.
fn without_sources() -> Vec<Lines> {
    let without = |engine: usize, edition: u64| {
        let mut block = ship_s();
        put_consumption(&mut block, engine, [0, 0], 0, 3);
        in_edition(block, edition)
    };
    let (main, auxiliary) = (line(1e6 * 3_806_440.0 / 700_000.0), line(1e6 * 3_630_924.0 / 700_000.0));
    vec![
        (without(0, 1), refused(19), vec![
            ("no source of an EEDI's main engine", main.clone()),
            ("no source of an EEDI as rule 10's", refused(10)),
        ]),
        (without(4, 2), refused(19), vec![("no source of an EEDI's auxiliaries", auxiliary.clone())]),
        (without(0, 0), main, vec![("no source of an EEXI's main engine, refused", refused(19))]),
        (without(4, 0), auxiliary, vec![("no source of an EEXI's auxiliaries, refused", refused(19))]),
    ]
}

// A limit of 7,100 kW makes 5,893 of the 6,000. Of two engines together the auxiliaries have 650 kW, so 416,780 g/h.
fn two_engines() -> (Block, f64) {
    (s_with_two_engines(), 1e6 * (11_893.0 * 180.0 * 3.114 + 416_780.0) / 700_000.0)
}

fn limiters() -> Vec<Lines> {
    let limited = s_with(&[(limit(0), 7_100)]);
    let (two, both) = two_engines();
    vec![
        (in_edition(limited, 2), refused(19), vec![
            ("an EEDI with a limiter", line(s_at(5_893.0))),
            ("a limiter that an EEDI passes over", line(S_INDEX)),
            ("an EEDI's limiter as rule 9's", refused(9)),
        ]),
        (in_edition(limited, 0), line(s_at(5_893.0)), vec![("an EEXI with a limiter, refused", refused(19))]),
        (in_edition(two, 1), refused(19), vec![("an EEDI with a limiter on the second engine", line(both))]),
        (in_edition(s_with(&[(limit(1), 7_100)]), 1), refused(16), vec![
            ("a limiter in an unused entry as rule 19's", refused(19)),
            ("a limiter in an unused entry", line(S_INDEX)),
        ]),
    ]
}

// A trial at P_ME gives its own speed; at design draught it is 14 x 0.97^(1/3) x 0.8^(2/9). By statistics V_avg is 10.6585 x
// 50,000^0.02706 less 5 %, and MCR_avg 23.7510 x 50,000^0.54087.
fn speeds() -> Vec<Lines> {
    let trial = s_with(&[(METHOD, 2), (TRIAL_POWER, 6_000)]);
    let design = s_with(&[(METHOD, 3), (TRIAL_POWER, 6_000), (TRIAL_DEADWEIGHT, 40_000)]);
    let statistical = s_with(&[(METHOD, 4), (SPEED[0], 0), (SPEED[1], 0)]);
    let at_design = S_INDEX / (0.97f64.cbrt() * 0.8f64.powf(2.0 / 9.0));
    let average = 0.95 * 10.6585 * 50_000f64.powf(0.02706) * (8_000.0 / (23.7510 * 50_000f64.powf(0.54087))).cbrt();
    let by_statistics = S_INDEX * 14.0 / average;
    vec![
        (in_edition(trial, 1), refused(19), vec![
            ("a trial's speed in an EEDI", line(S_INDEX)),
            ("a trial's speed in an EEDI as rule 13's", refused(13)),
        ]),
        (in_edition(design, 2), refused(19), vec![("a design trial's speed in an EEDI", line(at_design))]),
        (in_edition(statistical, 1), refused(19), vec![("a statistical speed in an EEDI", line(by_statistics))]),
        (in_edition(trial, 0), line(S_INDEX), vec![("a trial's speed refused in an EEXI", refused(19))]),
        (in_edition(design, 0), line(at_design), vec![("a design trial's speed refused in an EEXI", refused(19))]),
        (in_edition(statistical, 0), line(by_statistics), vec![("a statistical speed refused in an EEXI", refused(19))]),
    ]
}

// The edition's byte itself, and its place in the order of the rules.
fn edition_bytes() -> Vec<Lines> {
    let iced = s_with(&[(ICE, 1)]);
    let limited = s_with(&[(LIGHTWEIGHT, 99), (limit(0), 7_100)]);
    vec![
        (in_edition(ship_s(), 3), refused(19), vec![("edition 3", line(S_INDEX)), ("edition 3 as rule 16's", refused(16))]),
        (in_edition(iced, 3), refused(19), vec![("edition 3 as the amended one", line(S_INDEX / 1.05))]),
        (in_edition(iced, 255), refused(19), vec![("edition 255 as the first one", line(S_INDEX))]),
        (in_edition(s_with(&[(LIGHTWEIGHT, 99)]), 3), refused(18), vec![("19 before 18", refused(19))]),
        (in_edition(limited, 1), refused(18), vec![("an EEDI's limiter before 18", refused(19))]),
        (in_edition(s_with(&[(Field(142, 1), 1)]), 3), refused(16), vec![("19 before 16", refused(19))]),
        (in_edition(s_with(&[(Field(143, 1), 1)]), 1), refused(16), vec![
            ("a byte behind the edition as rule 19's", refused(19)),
            ("a byte behind the edition", line(S_INDEX)),
        ]),
        (s_with(&[(EDITION, 1)]), refused(16), vec![
            ("an edition in layout 1", line(S_INDEX)),
            ("an edition in layout 1 as rule 19's", refused(19)),
        ]),
        (s_with(&[(EDITION, 3)]), refused(16), vec![("edition 3 in layout 1 as rule 19's", refused(19))]),
    ]
}

// At rated power the index is rounded down and up and has no other enclosure: 3,619,600 g/h over 50,000 t x 14.50 knots is 4.9925517 g,
// over 250,000 t x 14 knots 1.0341714 g. A limit of 7,000 kW makes 5,810 of the 6,000 and 5.018716 g, a whole number of millionths.
fn rated_bounds() -> Vec<Lines> {
    let mut quick = trial_at(ship_s(), 6_000, 0);
    put_both(&mut quick, SPEED, 1_450);
    let large = s_with(&[(DEADWEIGHT, 250_000), (CARGO_VOLUME, 300_000)]);
    let ranged = s_with(&[(consumption(0).0[0], 1_750)]);
    vec![
        (sealed(quick), bounds(4_992_551, 4_992_552), vec![
            ("14.499999 to 14.500002 knots at rated power", bounds(4_992_551, 4_992_553)),
            ("a lower bound one less at rated power", bounds(4_992_550, 4_992_552)),
            ("a trial at rated power refused", refused(15)),
        ]),
        (trial_at(large, 6_000, 250_000), bounds(1_034_171, 1_034_172), vec![
            ("an upper bound one more at design draught", bounds(1_034_171, 1_034_173)),
            ("a lower bound one less at design draught", bounds(1_034_170, 1_034_172)),
        ]),
        (trial_at(ranged, 6_000, 0), bounds(5_037_400, 5_170_858), vec![
            ("a ranged trial's upper bound one more", bounds(5_037_400, 5_170_859)),
            ("a ranged trial's lower bound one less", bounds(5_037_399, 5_170_858)),
        ]),
        (trial_at(s_with(&[(limit(0), 7_000)]), 5_810, 0), bounds(5_018_716, 5_018_716), vec![
            ("a whole index at rated power, upper bound one more", bounds(5_018_716, 5_018_717)),
            ("a whole index at rated power, lower bound one less", bounds(5_018_715, 5_018_716)),
        ]),
    ]
}

// What the trial's power is compared with: the sum of P_ME to a hundredth of a kW, which of the two engines is 6,000 and 5,893, and of
// one of 8,001 kW is 6,000.75. Elsewhere V_ref goes with the cube root of the two powers.
fn rated_powers() -> Vec<Indexes> {
    let (two, both) = two_engines();
    let idle = s_with(&[(limit(0), 8_000)]);
    let odd = s_with(&[(mcr(0)[0], 8_001), (mcr(0)[1], 8_001)]);
    let odd_index = 1e6 * (6_000.75 * 180.0 * 3.114 + 400.05 * 200.0 * 3.206) / 700_000.0;
    let at = |index: f64, sum: f64, trial: f64| index / (sum / trial).cbrt();
    let s = |power: u64, name: &'static str| (trial_at(ship_s(), power, 0), at(S_INDEX, 6_000.0, power as f64), vec![(name, S_INDEX)]);
    let of_two = |power: u64, name: &'static str| (trial_at(two, power, 0), at(both, 11_893.0, power as f64), vec![(name, both)]);
    vec![
        s(6_001, "a trial one kW above P_ME taken for rated"),
        s(5_999, "a trial one kW below P_ME taken for rated"),
        s(8_000, "a trial at MCR taken for rated"),
        (trial_at(odd, 6_000, 0), at(odd_index, 6_000.75, 6_000.0), vec![("P_ME rounded down for the trial", odd_index)]),
        (trial_at(odd, 6_001, 0), at(odd_index, 6_000.75, 6_001.0), vec![("P_ME rounded up for the trial", odd_index)]),
        (trial_at(idle, 6_640, 0), at(S_INDEX, 6_000.0, 6_640.0), vec![("a trial at 83 % of an idle limit taken for rated", S_INDEX)]),
        (trial_at(two, 11_893, 0), both, vec![
            ("the trial beside the first engine's P_ME", at(both, 6_000.0, 11_893.0)),
            ("the trial beside P_ME without the limiter", at(both, 12_000.0, 11_893.0)),
        ]),
        of_two(6_000, "a trial at the first engine's P_ME taken for rated"),
        of_two(5_893, "a trial at the last engine's P_ME taken for rated"),
        of_two(12_000, "a trial at P_ME without the limiter taken for rated"),
    ]
}

// The index of S with that Capacity and that k where the trial's deadweight is so much of Capacity.
fn s_drawn(capacity: f64, k: f64, part: f64) -> f64 {
    1e6 * 3_619_600.0 / (capacity * 14.0 * k.cbrt() * part.powf(2.0 / 9.0))
}

// At design draught besides k has to be 1, which it becomes above 200,000 t of a bulk carrier and 100,000 t of a tanker.
fn rated_scales() -> Vec<Indexes> {
    let of = |kind: u64, deadweight: u64, right: f64, wrong: f64, name: &'static str| {
        let index = |k: f64| s_drawn(deadweight as f64, k, 1.0);
        (trial_at(s_sized(kind, deadweight), 6_000, deadweight), index(right), vec![(name, index(wrong))])
    };
    vec![
        of(1, 50_000, 0.97, 1.0, "method 3 taken as exact without k"),
        of(1, 200_000, 0.97, 1.0, "k of 1 for a bulk carrier of 200,000 t"),
        of(1, 200_001, 1.0, 0.97, "k of 0.97 for a bulk carrier of 200,001 t"),
        of(1, 150_000, 0.97, 1.0, "a tanker's k for a bulk carrier"),
        of(3, 100_000, 0.97, 1.0, "k of 1 for a tanker of 100,000 t"),
        of(3, 100_001, 1.0, 0.97, "k of 0.97 for a tanker of 100,001 t"),
        of(3, 150_000, 1.0, 0.97, "a bulk carrier's k for a tanker"),
    ]
}

// And the trial's deadweight has to be Capacity: of a container ship 70 % of her deadweight, of others all of it and f_i left out.
fn rated_draughts() -> Vec<Indexes> {
    let large = s_sized(1, 250_000);
    let part = |tonnes: u64| s_drawn(250_000.0, 1.0, tonnes as f64 / 250_000.0);
    let at = |tonnes: u64, name: &'static str| (trial_at(large, 6_000, tonnes), part(tonnes), vec![(name, part(250_000))]);
    let mut structural = large;
    put(&mut structural, LAYOUT, 2);
    put(&mut structural, LIGHTWEIGHT, 25_000);
    let with_f_i = |part: f64| s_drawn(252_000.0, 1.0, part);
    let boxes = |tonnes: u64| trial_at(s_sized(4, 60_000), 6_000, tonnes);
    let carried = |k: f64, tonnes: f64| s_drawn(42_000.0, k, tonnes / 42_000.0);
    vec![
        at(249_999, "a tonne less than Capacity taken for it"),
        at(250_001, "a tonne more than Capacity taken for it"),
        at(240_000, "method 3 taken as exact at another deadweight"),
        (trial_at(large, 6_001, 250_000), part(250_000) * (6_001.0f64 / 6_000.0).cbrt(), vec![("one kW off at Capacity", part(250_000))]),
        (trial_at(structural, 6_000, 250_000), with_f_i(1.0), vec![("the trial beside Capacity with f_i", with_f_i(250.0 / 252.0))]),
        (trial_at(structural, 6_000, 252_000), with_f_i(252.0 / 250.0), vec![("Capacity with f_i taken for Capacity", with_f_i(1.0))]),
        (boxes(42_000), carried(0.95, 42_000.0), vec![("a container ship's k left out", carried(1.0, 42_000.0))]),
        (boxes(60_000), carried(0.95, 60_000.0), vec![("a container ship's deadweight for Capacity", carried(0.95, 42_000.0))]),
    ]
}

// A trial at rated power keeps f_c and f_j, which are powers of other numbers than 1.
fn rated_factors() -> Vec<Indexes> {
    let mut coasting = coaster(1_400);
    put(&mut coasting, METHOD, 2);
    put(&mut coasting, TRIAL_POWER, 3_000);
    let (light_factor, vehicle_factor) = (0.5f64.powf(-0.15), 1.05f64.powf(0.8));
    let vehicle = 1e6 * 5_397_340.0 / 360_000.0;
    let knots = right(14.0, 0.0);
    vec![
        (trial_at(s_with(&[(CARGO_VOLUME, 100_000)]), 6_000, 0), S_INDEX / light_factor, vec![
            ("no light-cargo f_c at rated power", S_INDEX),
            ("light-cargo f_c upside down at rated power", S_INDEX * light_factor),
        ]),
        (trial_at(vehicle_carrier(0), 9_000, 0), vehicle / vehicle_factor, vec![("no vehicle carriers' f_c at rated power", vehicle)]),
        (sealed(coasting), knots.index(), vec![("no f_j at rated power", Reading { froude_cap: 0.1, ..knots }.index())]),
    ]
}

// How many wrong readings there are, and the names of those that were not caught.
pub fn uncaught() -> (usize, Vec<&'static str>) {
    let mut indexes = coasters();
    indexes.push(bulk_carrier());
    for more in vec![new_ships(), rated_powers(), rated_scales(), rated_draughts(), rated_factors()] {
        indexes.extend(more);
    }
    let lines = |(block, index, wrong): Indexes| -> Lines {
        (block, line(index), wrong.into_iter().map(|(name, index)| (name, line(index))).collect())
    };
    let mut ships: Vec<Lines> = indexes.into_iter().map(lines).collect();
    for more in vec![wide_bounds(), without_sources(), limiters(), speeds(), edition_bytes(), rated_bounds()] {
        ships.extend(more);
    }
    misread(&ships, &|block, line| hold::verdict(0, desk::answer(block), line))
}
