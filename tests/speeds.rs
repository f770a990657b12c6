// The test of the program `speeds` from outside: the blocks of the test of `fleet`, and ships at the turns of the speed itself, each line
// held to a reference that was written from the customer's documents alone (desk.rs).
// Usage: speeds PROGRAM [ARGUMENT...]
#[path = "breaks.rs"]
mod breaks;
#[path = "desk.rs"]
mod desk;
#[path = "edges.rs"]
mod edges;
#[path = "editions.rs"]
mod editions;
#[path = "hold.rs"]
mod hold;
#[path = "hulls.rs"]
mod hulls;
#[path = "knots.rs"]
mod knots;
#[path = "misreadings.rs"]
mod misreadings;
#[path = "program.rs"]
mod program;
#[path = "rated.rs"]
mod rated;
#[path = "runs.rs"]
mod runs;
#[path = "ships.rs"]
mod ships;
#[path = "suite.rs"]
mod suite;
#[path = "turns.rs"]
mod turns;

use desk::{Speed, SpeedAnswer, BLOCK};
use runs::{accepted, new_ships, Tested};
use ships::*;
use std::process::exit;

// The words of ship S behind the number.
const WORDS_OF_S: &str = "9074729 14000000 14000000 14000000 14000000";

// The program keeps the documents' figures; these lines and bounds are in the documents or follow by hand.
fn figures(tested: &Tested) {
    let example = [ship_s(), [0; BLOCK]].concat();
    tested.prints("the document's example", &example, &format!("0 {}\n1 refused 2\n", WORDS_OF_S));
    let mut blocks = declared();
    blocks.extend(at_rated_power());
    blocks.extend(refusals());
    tested.prints_words("the figures", &blocks);
    trials(tested);
    draughts(tested);
    statistics(tested);
}

// A declared speed is V_ref: the most favourable ship has the high end, the least favourable the low one. Nothing else enters: no ice
// class, f_c, f_i, f_j or edition, and no range of power or consumption.
fn declared() -> Vec<(Block, &'static str)> {
    let mut coasting = coaster(1_005);
    put(&mut coasting, mcr(0)[0], 3_900);
    let mut all = vec![
        (s_with_ranges(), "9074729 14000000 14000000 13500000 13500000"),
        (s_with(&[(SPEED[0], 1_399)]), "9074729 14000000 14000000 13990000 13990000"),
        (s_with(&[(SPEED[1], 1_401)]), "9074729 14010000 14010000 14000000 14000000"),
        (s_with(&[(SPEED[0], 500), (SPEED[1], 6_000)]), "9074729 60000000 60000000 5000000 5000000"),
        (s_with(&[(SPEED[0], 500), (SPEED[1], 500)]), "9074729 5000000 5000000 5000000 5000000"),
        (s_with(&[(SPEED[0], 6_000), (SPEED[1], 6_000)]), "9074729 60000000 60000000 60000000 60000000"),
        (s_with(&[(SPEED[0], 1_350), (mcr(0)[0], 7_900)]), "9074729 14000000 14000000 13500000 13500000"),
        (s_with(&[(mcr(0)[0], 7_900)]), WORDS_OF_S),
        (s_with(&[(consumption(0).0[0], 1_750), (AUX_SFC[0], 1_900)]), WORDS_OF_S),
        (s_with(&[(limit(0), 7_000)]), WORDS_OF_S),
        (s_with(&[(ICE, 2)]), WORDS_OF_S),
        (s_with(&[(CARGO_VOLUME, 100_000)]), WORDS_OF_S),
        (like_s(&|block| put_consumption(block, 0, [0, 0], 0, 3)), WORDS_OF_S),
        (s_in_layout_2(0), WORDS_OF_S),
        (s_in_layout_2(10_000), WORDS_OF_S),
        (in_edition(s_with_ranges(), 1), "9074729 14000000 14000000 13500000 13500000"),
        (sealed(coasting), "9074729 10050000 10050000 10050000 10050000"),
    ];
    for edition in 0..3 {
        all.push((vehicle_carrier(edition), "9074729 18000000 18000000 18000000 18000000"));
        all.push((in_edition(s_with(&[(ICE, 1)]), edition), WORDS_OF_S));
    }
    all
}

// A trial at just the sum of P_ME is V_ref too, at design draught where k is 1 and the deadweight is Capacity: of S 6,000 kW; with a limit
// of 7,000 kW 5,810; of two engines 11,893; of the vehicle carrier 9,000 and of the coaster 3,000, whose f_c and f_j are no matter.
fn at_rated_power() -> Vec<(Block, &'static str)> {
    let mut quick = s_with(&[(consumption(0).0[0], 1_750)]);
    put_both(&mut quick, SPEED, 1_450);
    let mut structural = s_sized(1, 250_000);
    put(&mut structural, LAYOUT, 2);
    put(&mut structural, LIGHTWEIGHT, 25_000);
    vec![
        (trial_at(ship_s(), 6_000, 0), WORDS_OF_S),
        (trial_at(quick, 6_000, 0), "9074729 14500000 14500000 14500000 14500000"),
        (trial_at(s_with(&[(limit(0), 7_000)]), 5_810, 0), WORDS_OF_S),
        (trial_at(s_with(&[(limit(0), 8_000)]), 6_000, 0), WORDS_OF_S),
        (trial_at(s_with_two_engines(), 11_893, 0), WORDS_OF_S),
        (trial_at(s_with(&[(CARGO_VOLUME, 100_000)]), 6_000, 0), WORDS_OF_S),
        (trial_at(s_sized(4, 50_000), 6_000, 0), WORDS_OF_S),
        (trial_at(vehicle_carrier(0), 9_000, 0), "9074729 18000000 18000000 18000000 18000000"),
        (trial_at(coaster(1_234), 3_000, 0), "9074729 12340000 12340000 12340000 12340000"),
        (trial_at(s_sized(1, 200_001), 6_000, 200_001), WORDS_OF_S),
        (trial_at(s_sized(3, 100_001), 6_000, 100_001), WORDS_OF_S),
        (trial_at(structural, 6_000, 250_000), WORDS_OF_S),
    ]
}

// Each number, by the row of the table; the short piece behind them is refused with 1, and bytes that are all zero with 2.
fn refusals() -> Vec<(Block, &'static str)> {
    let trial = trial_at(ship_s(), 6_000, 0);
    let on_trial = |field: Field, value: u64| {
        let mut block = trial;
        put(&mut block, field, value);
        sealed(block)
    };
    vec![
        ([0; BLOCK], "refused 2"),
        (s_with(&[(LAYOUT, 3)]), "refused 3"),
        (s_with(&[(IMO, 9_074_728)]), "refused 4"),
        (s_with(&[(TYPE, 8), (CARGO_VOLUME, 0)]), "refused 5"),
        (s_with(&[(DEADWEIGHT, 600_001)]), "refused 6"),
        (s_with(&[(GROSS_TONNAGE, 1)]), "refused 7"),
        (s_with(&[(CARGO_VOLUME, 99)]), "refused 8"),
        (s_with(&[(limit(0), 8_001)]), "refused 9"),
        (like_s(&|block| put_consumption(block, 0, [0, 0], 3, 1)), "refused 10"),
        (s_with(&[(AUX_METHOD, 3)]), "refused 11"),
        (s_with(&[(ICE, 3)]), "refused 12"),
        (s_with(&[(SPEED[0], 499)]), "refused 13"),
        (s_with(&[(SPEED[1], 6_001)]), "refused 13"),
        (on_trial(METHOD, 4), "refused 13"),
        (s_with(&[(SPEED[0], 1_401)]), "refused 14"),
        (on_trial(SPEED[0], 1_399), "refused 14"),
        (on_trial(mcr(0)[0], 7_999), "refused 14"),
        (on_trial(TRIAL_POWER, 30_001), "refused 15"),
        (on_trial(TRIAL_POWER, 1_199), "refused 15"),
        (on_trial(TRIAL_DEADWEIGHT, 50_000), "refused 15"),
        (s_with(&[(Field(49, 1), 1)]), "refused 16"),
        (s_with(&[(LIGHTWEIGHT, 10_000)]), "refused 16"),
        (s_in_layout_2(99), "refused 18"),
        (in_edition(ship_s(), 3), "refused 19"),
        (in_edition(trial, 1), "refused 19"),
    ]
}

// The document's trial: 10 knots times the cube root of 6,750 / 2,000 are 15. The root of 6,000 / 20,250 is 2 / 3, which makes 9.333333..
// of 14 knots. A trial at half of P_ME has the cube root of 2, which is 1.259921050: S then has 17.6388947 knots, with ranges of consumption
// too, the coaster of 12 knots 15.1190526 and the vehicle carrier of 18 knots 22.6785789.
fn trials(tested: &Tested) {
    encloses(tested, "the trial at 15 knots", fifteen_knots(), 15_000_000, 15_000_000);
    encloses(tested, "a trial that makes two thirds", trial_at(ship_s(), 20_250, 0), 9_333_333, 9_333_334);
    encloses(tested, "S at half of P_ME", trial_at(ship_s(), 3_000, 0), 17_638_894, 17_638_895);
    encloses(tested, "the coaster at half of P_ME", trial_at(coaster(1_200), 1_500, 0), 15_119_052, 15_119_053);
    encloses(tested, "the vehicle carrier at half of P_ME", trial_at(vehicle_carrier(0), 4_500, 0), 22_678_578, 22_678_579);
    let ranged = s_with(&[(consumption(0).0[0], 1_750), (AUX_SFC[0], 1_900)]);
    encloses(tested, "S at half of P_ME with ranges", trial_at(ranged, 3_000, 0), 17_638_894, 17_638_895);
}

// At design draught and rated power. S: 14 x 0.97^(1/3) x 0.8^(2/9) = 14 x 0.989898299 x 0.951621930 = 13.1881250. A container ship of
// 60,000 t, Capacity 42,000 and k 0.95: at it 14 x 0.983047572 = 13.7626660, with 60,000 t on trial times 1.082486921, so 14.8979060. One of
// 120,010 t, k 0.93, at her Capacity of 84,007 t: 14 x 0.976100008 = 13.6654001. A bulk carrier of 200,000 t at it: k is still 0.97, 13.8585762.
fn draughts(tested: &Tested) {
    encloses(tested, "S at design draught", trial_at(ship_s(), 6_000, 40_000), 13_188_125, 13_188_126);
    encloses(tested, "a container ship at Capacity", trial_at(s_sized(4, 60_000), 6_000, 42_000), 13_762_666, 13_762_667);
    encloses(tested, "a container ship above Capacity", trial_at(s_sized(4, 60_000), 6_000, 60_000), 14_897_905, 14_897_906);
    encloses(tested, "a large container ship", trial_at(s_sized(4, 120_010), 6_000, 84_007), 13_665_400, 13_665_401);
    encloses(tested, "a bulk carrier of 200,000 t", trial_at(s_sized(1, 200_000), 6_000, 200_000), 13_858_576, 13_858_577);
}

// By statistics, from deadweight and sum of P_ME: V_avg and its margin, MCR_avg, and (sum of P_ME / (0.75 MCR_avg))^(1/3).
//   1 bulk carrier, 50,000 t, 6,000 kW           14.2840124 less 5 %        8,264.447   0.989218114   13.4235036 knots
//   2 gas carrier, 50,000 t, 6,000 kW            16.9529147 less 5 %       13,451.201   0.840961877   13.5439172
//   3 tanker, 50,000 t, 6,000 kW                 14.5661849 less 5 %        9,593.379   0.941252459   13.0249345
//   4 container ship, 150,000 t, 45,000 kW       25.5534337 less one knot  67,912.217   0.959550378   23.5602566, by 80,000 and 95,000 t
//   5 refrigerated cargo, 12,000 t, 9,000 kW     20.4636081 less one knot  12,294.221   0.991958274   19.3070871
//   6 combination carrier, 50,000 t, 6,000 kW    14.5642120 less 5 %        9,592.232   0.941289981   13.0236895
//   7 vehicle carrier, 20,000 t, 9,000 kW        19.9356455 less 5 %       13,766.557   0.955253492   18.0914152
//     and of 60,000 t                            20.3342438 less one knot  21,357.235   0.825173757   15.9541106
//   8 general cargo ship, 5,500 t, 3,000 kW      12.4229365 less 5 %        2,444.981   1.178315303   13.9062293
fn statistics(tested: &Tested) {
    let of = |mut block: Block, deadweight: u64, kilowatts: u64| {
        put(&mut block, METHOD, 4);
        put(&mut block, DEADWEIGHT, deadweight);
        put_both(&mut block, SPEED, 0);
        put_both(&mut block, mcr(0), kilowatts);
        sealed(block)
    };
    let sister = |kind: u64| of(s_sized(kind, 50_000), 50_000, 8_000);
    encloses(tested, "S by statistics", sister(1), 13_423_503, 13_423_504);
    encloses(tested, "a gas carrier by statistics", sister(2), 13_543_917, 13_543_918);
    encloses(tested, "a tanker by statistics", sister(3), 13_024_934, 13_024_935);
    encloses(tested, "a container ship by statistics", of(s_sized(4, 150_000), 150_000, 60_000), 23_560_256, 23_560_257);
    encloses(tested, "a refrigerated cargo ship by statistics", of(s_sized(5, 12_000), 12_000, 12_000), 19_307_087, 19_307_088);
    encloses(tested, "a combination carrier by statistics", sister(6), 13_023_689, 13_023_690);
    encloses(tested, "a vehicle carrier by statistics", of(vehicle_carrier(0), 20_000, 12_000), 18_091_415, 18_091_416);
    encloses(tested, "a large vehicle carrier by statistics", of(vehicle_carrier(0), 60_000, 12_000), 15_954_110, 15_954_111);
    encloses(tested, "the coaster by statistics", of(coaster(0), 5_500, 4_000), 13_906_229, 13_906_230);
}

// The speed lies between two whole numbers, so the bounds enclose both and are no farther apart than they may be; one ship, one pair.
fn encloses(tested: &Tested, name: &str, block: Block, floor: u64, ceiling: u64) {
    let text = tested.text(name, &block);
    let figures: Vec<u64> = text.split_whitespace().filter_map(|word| word.parse().ok()).collect();
    match figures[..] {
        [0, 9_074_729, lower, upper, same_lower, same_upper]
            if lower <= floor && ceiling <= upper && knots::is_close(lower, upper) && (lower, upper) == (same_lower, same_upper) => {}
        _ => tested.fail(&format!("{} should enclose {} and {} but printed {}", name, floor, ceiling, text)),
    }
}

// Where an input can't be read on or an output not be written, a line says so; whole blocks before have their lines, a piece has none.
fn failures(tested: &Tested) {
    let (unread, unwritten) = ("speeds: cannot read standard input\n", "speeds: cannot write standard output\n");
    let program = &tested.program;
    tested.or_fail("a folder for input", program::from_folder(program).said("", unread));
    let blocks = [ship_s(), [0; BLOCK], s_with_ranges()].concat();
    let right = format!("0 {}\n1 refused 2\n2 9074729 14000000 14000000 13500000 13500000\n", WORDS_OF_S);
    tested.or_fail("an input that fails", program::from_failing(program, &blocks).said(&right, unread));
    let piece = [&blocks[..], &ship_s()[..200]].concat();
    tested.or_fail("an input that fails within a block", program::from_failing(program, &piece).said(&right, unread));
    tested.or_fail("a full disk", program::onto_full_disk(program, &blocks).said("", unwritten));
    tested.or_fail("a full disk and nothing to write", program::onto_full_disk(program, &[]).said("", ""));
}

// Ships at the turns of the speed itself. What each must be answered is known, and the reference has to find the same.
fn at_turns(tested: &Tested, count: &mut Count) -> Vec<Block> {
    let mut random = Random(!suite::SEED);
    let mut all = Vec::new();
    for (block, known) in turns::at_declared_ends(&mut random) {
        let answer = desk::speeds(&block);
        let right = match (answer, known) {
            (SpeedAnswer::Speeds { most, least, .. }, Ok([high, low])) => (most, least) == (Speed::Exact(high), Speed::Exact(low)),
            (SpeedAnswer::Refused(number), Err(rule)) => number == rule,
            _ => false,
        };
        if !right {
            tested.fail(&format!("the reference gives {:?} where it should be {:?}", answer, known));
        }
        all.push(block);
    }
    for (block, (over, under)) in turns::at_cubes(&mut random, &mut all) {
        match desk::speeds(&block) {
            SpeedAnswer::Speeds { most: Speed::Near(speed), .. } if (speed * under as f64 / over as f64 - 1.0).abs() < desk::DOUBLE_ERROR => {}
            answer => tested.fail(&format!("the reference gives {:?} where it should be {} / {}", answer, over, under)),
        }
        count.cubes += 1;
        all.push(block);
    }
    all
}

// What the speed goes by, as far as it occurs.
#[derive(Default)]
struct Count {
    accepted: [[u64; 5]; 9],
    layouts: [u64; 3],
    editions: [u64; 3],
    refused: [u64; 20],
    // Declared: with a range of speed; with one of rated power alone, in which both ships have the same speed.
    ranged: [u64; 2],
    // At rated power by type, and how many of these with an f_c other than 1; beside it by what is off, in the order of BESIDE.
    rated: [u64; 9],
    rated_light: u64,
    beside: [u64; 4],
    // At design draught by k; by statistics with a margin of 5 % and of one knot; container ships under either cap, between and above.
    scales: [u64; 4],
    margins: [u64; 2],
    caps: [u64; 3],
    // Powers that are as cubes; consumptions that are ranges beside a speed with a power in it.
    cubes: u64,
    ranged_near: u64,
}

const SCALES: [u64; 4] = [100, 97, 95, 93];
const BESIDE: [&str; 4] = ["one kW off", "less than a kW off", "one tonne off Capacity", "k below 1"];

// What keeps a trial beside rated power from its own speed, all else being as it should.
fn beside(ship: &desk::Ship) -> Option<usize> {
    let off = (100 * ship.trial_power as i64 - ship.main_power(0) as i64).abs();
    let tonnes = if ship.method == 3 { (10 * ship.trial_deadweight as i64 - ship.capacity() as i64).abs() } else { 0 };
    match (off, tonnes, ship.method == 3 && ship.scale() < 100) {
        (100, 0, false) => Some(0),
        (1..=99, 0, false) => Some(1),
        (0, 10, false) => Some(2),
        (0, 0, true) => Some(3),
        _ => None,
    }
}

impl Count {
    fn add(&mut self, block: &[u8], answer: SpeedAnswer) {
        let ship = match answer {
            SpeedAnswer::Refused(rule) => return self.refused[rule as usize] += 1,
            _ => desk::fields(block),
        };
        self.accepted[ship.kind as usize][ship.method as usize] += 1;
        self.layouts[ship.layout as usize] += 1;
        self.editions[ship.edition as usize] += 1;
        self.ranged_near += (ship.has_ranges() && !ship.has_recorded_speed()) as u64;
        match ship.method {
            1 if ship.speed[0] != ship.speed[1] => self.ranged[0] += 1,
            1 => self.ranged[1] += (ship.main_power(0) != ship.main_power(1)) as u64,
            4 => self.add_statistical(&ship),
            _ => self.add_trial(&ship),
        }
    }
    fn add_trial(&mut self, ship: &desk::Ship) {
        if ship.is_at_rated_power() {
            self.rated[ship.kind as usize] += 1;
            self.rated_light += ship.has_cargo_factor() as u64;
        }
        if let Some(what) = beside(ship) {
            self.beside[what] += 1;
        }
        if ship.method == 3 {
            self.scales[SCALES.iter().position(|scale| *scale == ship.scale()).unwrap()] += 1;
        }
    }
    // V_avg is 20 knots where 5 % of it are one.
    fn add_statistical(&mut self, ship: &desk::Ship) {
        self.margins[(desk::statistics(ship).0 > 19.0) as usize] += 1;
        if ship.kind == 4 {
            self.caps[(ship.deadweight > 80_000) as usize + (ship.deadweight > 95_000) as usize] += 1;
        }
    }
    // A kind that hardly occurs would make the test idle.
    fn too_few(&self) -> Vec<String> {
        let mut wants: Vec<(String, u64, u64)> = vec![
            ("ranges of speed".to_string(), self.ranged[0], 10_000),
            ("ranges of rated power alone".to_string(), self.ranged[1], 2_000),
            ("ranges of consumption beside a power".to_string(), self.ranged_near, 10_000),
            ("rated power with an f_c".to_string(), self.rated_light, 900),
            ("powers that are as cubes".to_string(), self.cubes, 1_000),
            ("layout 1".to_string(), self.layouts[1], 50_000),
            ("layout 2".to_string(), self.layouts[2], 50_000),
        ];
        for (kind, method) in kinds() {
            wants.push((format!("type {} method {}", kind, method), self.accepted[kind as usize][method as usize], 2_000));
        }
        wants.extend((1..17).chain(18..20).map(|rule| (format!("refusal {}", rule), self.refused[rule], if rule == 1 { 150 } else { 500 })));
        wants.extend((0..3).map(|edition| (format!("edition {}", edition), self.editions[edition], 10_000)));
        wants.extend([1, 2, 3, 4, 5, 6, 7, 8].iter().map(|kind| (format!("rated power, type {}", kind), self.rated[*kind], 500)));
        wants.extend((0..4).map(|what| (format!("beside rated power, {}", BESIDE[what]), self.beside[what], 1_000)));
        wants.extend((0..4).map(|at| (format!("k of {} hundredths", SCALES[at]), self.scales[at], 500)));
        wants.extend((0..2).map(|way| (format!("margin of {}", ["5 %", "one knot"][way]), self.margins[way], 5_000)));
        wants.extend((0..3).map(|way| (format!("container ships {}", ["under both caps", "between", "above both"][way]), self.caps[way], 30)));
        let few = wants.into_iter().filter(|(_, count, least)| count < least);
        few.map(|(what, count, least)| format!("{}: {} of {}", what, count, least)).collect()
    }
    fn print(&self) {
        let methods: Vec<u64> = (1..5).map(|method| self.accepted.iter().map(|of_type| of_type[method]).sum()).collect();
        let kinds: Vec<u64> = self.accepted[1..].iter().map(|of_type| of_type.iter().sum()).collect();
        print!("speeds: accepted by methods 1-4 {:?}, types 1-8 {:?}, ", methods, kinds);
        println!("layouts {:?}, editions {:?}", &self.layouts[1..], self.editions);
        let [speed, power] = self.ranged;
        print!("speeds: with ranges of speed {}, of power alone {}, of consumption beside a power {}; ", speed, power, self.ranged_near);
        println!("at rated power by types 1-8 {:?}, with an f_c {}; as cubes {}", &self.rated[1..], self.rated_light, self.cubes);
        let beside: Vec<String> = BESIDE.iter().zip(&self.beside).map(|(what, count)| format!("{} {}", what, count)).collect();
        print!("speeds: beside rated power: {}; k of {:?} hundredths {:?}; ", beside.join(", "), SCALES, self.scales);
        println!("margins of 5 % and one knot {:?}; container ships under, between and above the caps {:?}", self.margins, self.caps);
        let refused: Vec<String> = (1..17).chain(18..20).map(|rule| format!("{}: {}", rule, self.refused[rule])).collect();
        println!("speeds: refused by {}", refused.join(", "));
    }
}

fn answers_of(bytes: &[u8]) -> Vec<SpeedAnswer> {
    bytes.chunks(BLOCK).map(desk::speeds).collect()
}

// What is wrong with the lines for these bytes; the blocks are counted.
fn held(bytes: &[u8], text: &str, count: &mut Count) -> Vec<String> {
    let answers = answers_of(bytes);
    bytes.chunks(BLOCK).zip(&answers).for_each(|(block, answer)| count.add(block, *answer));
    knots::faults(&answers, text)
}

// The same of ships that are counted already.
fn held_again(bytes: &[u8], text: &str) -> Vec<String> {
    knots::faults(&answers_of(bytes), text)
}

// What enters the index alone doesn't change a word: ice class, layout, edition, lightweight, cargo volume and gross tonnage, light cargo
// or not.
fn same_whatever_the_index(tested: &Tested, all: &[Block]) -> usize {
    let of = |kinds_of: &[u64], fits: fn(&desk::Ship) -> bool| {
        accepted(all, kinds().into_iter().filter(|(kind, _)| kinds_of.contains(kind)).collect(), fits, 300)
    };
    let older = accepted(all, older_kinds(), |ship| ship.layout == 1, 300);
    let structural = of(&[1, 3], |ship| ship.layout == 2);
    let new = new_ships(all, |ship| ship.edition > 0, 300);
    tested.same_words("ice class", &accepted(all, kinds(), |_| true, 100), ICE, &[0, 1, 2], &mut held_again)
        + tested.same_words("layout", &older, LAYOUT, &[1, 2], &mut held_again)
        + tested.same_words("edition", &new, EDITION, &[0, 1, 2], &mut held_again)
        + tested.same_words("lightweight", &structural, LIGHTWEIGHT, &[0, 100, 200_000], &mut held_again)
        + tested.same_words("cargo volume", &of(&[1], |_| true), CARGO_VOLUME, &[100, 1_000_000], &mut held_again)
        + tested.same_words("gross tonnage", &of(&[7], |_| true), GROSS_TONNAGE, &[100, 400_000], &mut held_again)
}

// Wrong lines must be found wrong before right ones are asked for.
fn self_check(tested: &Tested) {
    let ships = [ship_s(), s_with_ranges(), trial_at(ship_s(), 3_000, 0), [0; BLOCK]];
    let answers: Vec<SpeedAnswer> = ships.iter().map(|block| desk::speeds(block)).collect();
    let (slips, mut missed) = knots::uncaught(&answers);
    let (readings, unseen) = misreadings::uncaught();
    missed.extend(unseen);
    if !missed.is_empty() {
        tested.fail(&format!("not caught: {}", missed.join(", ")));
    }
    println!("speeds: {} kinds of wrong output and {} of wrong readings, each caught", slips, readings);
}

fn main() {
    let tested = Tested::named("speeds");
    self_check(&tested);
    figures(&tested);
    tested.prints("no input", &[], "");
    failures(&tested);
    let mut count = Count::default();
    let mut all = tested.or_fail("the blocks", suite::blocks(&mut Random(suite::SEED)));
    all.extend(at_turns(&tested, &mut count));
    let (lines, mut wrong) = tested.all_lines(&all, &mut |bytes, text| held(bytes, text, &mut count));
    if wrong == 0 {
        wrong += tested.same_elsewhere(&all, &lines, &mut held_again);
        wrong += same_whatever_the_index(&tested, &all);
        wrong += tested.same_declared(&all, &mut held_again);
    }
    tested.reader_gone(&all);
    let (tails, short) = tested.tails(3, WORDS_OF_S);
    count.refused[1] += tails;
    count.print();
    let few = count.too_few();
    few.iter().for_each(|what| eprintln!("speeds: too few of {}", what));
    println!("speeds: {} blocks, {} wrong; {} short tails, {} wrong", all.len(), wrong, tails, short);
    exit((wrong > 0 || short > 0 || !few.is_empty()) as i32);
}
