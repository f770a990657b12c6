// Ships as a desk would have their speed that reads one rule wrongly: each such line of `speeds` must be caught, and the line of the right
// reading must not.
use desk;
use hold::{misread, Lines};
use knots;
use ships::*;

// A ship, her V_ref in knots by the right reading, and by wrong ones.
type Readings = (Block, f64, Vec<(&'static str, f64)>);

fn line(knots: f64) -> String {
    let (lower, upper) = ((1e6 * knots).floor(), (1e6 * knots).ceil());
    format!("0 9074729 {} {} {} {}", lower, upper, lower, upper)
}

// Bounds of the most and of the least favourable ship.
fn bounds(most: [u64; 2], least: [u64; 2]) -> String {
    format!("0 9074729 {} {} {} {}", most[0], most[1], least[0], least[1])
}

// V_ref of S by a trial of 14.00 knots where the powers are so.
fn by_powers(sum: f64, trial: f64) -> f64 {
    14.0 * (sum / trial).cbrt()
}

// S, whose P_ME is 6,000 kW, on a trial at half of it.
fn powers() -> Vec<Readings> {
    let half = trial_at(ship_s(), 3_000, 0);
    let right = by_powers(6_000.0, 3_000.0);
    let with = |field: Field, value: u64| {
        let mut block = half;
        put(&mut block, field, value);
        sealed(block)
    };
    vec![
        (half, right, vec![
            ("the trial's speed at another power", 14.0),
            ("powers upside down", by_powers(3_000.0, 6_000.0)),
            ("a square root of the powers", 14.0 * 2f64.sqrt()),
            ("powers without a root", 28.0),
            ("MCR in place of P_ME", by_powers(8_000.0, 3_000.0)),
            ("83 % of MCR without a limiter", by_powers(6_640.0, 3_000.0)),
            ("P_AE beside P_ME", by_powers(6_400.0, 3_000.0)),
        ]),
        (with(ICE, 1), right, vec![("f_m in the speed", right * 1.05), ("f_m below the speed", right / 1.05)]),
        (with(CARGO_VOLUME, 100_000), right, vec![("f_c in the speed", right * 0.5f64.powf(-0.15))]),
    ]
}

// What P_ME is with limiters: of 7,000 kW 5,810; of 8,000 still 6,000, for 83 % are more; of the second of two engines 5,893.
fn limited_powers() -> Vec<Readings> {
    let limited = |kilowatts: u64| trial_at(s_with(&[(limit(0), kilowatts)]), 3_000, 0);
    let (two, at) = (s_with_two_engines(), |sum: f64| by_powers(sum, 3_000.0));
    vec![
        (limited(7_000), at(5_810.0), vec![
            ("P_ME without the limiter", at(6_000.0)),
            ("the limit for P_ME", at(7_000.0)),
            ("75 % of the limit", at(5_250.0)),
        ]),
        (limited(8_000), at(6_000.0), vec![("83 % of the limit when 75 % of MCR is smaller", at(6_640.0))]),
        (trial_at(two, 3_000, 0), at(11_893.0), vec![
            ("the first engine alone", at(6_000.0)),
            ("the last engine alone", at(5_893.0)),
            ("two engines without the limiter", at(12_000.0)),
        ]),
        (trial_at(two, 6_000, 0), by_powers(11_893.0, 6_000.0), vec![("a trial at the first engine's P_ME taken for rated", 14.0)]),
        (trial_at(two, 11_893, 0), 14.0, vec![("a trial at rated power beside the first engine's", by_powers(6_000.0, 11_893.0))]),
    ]
}

// A trial beside the sum of P_ME, which of an engine of 8,001 kW is 6,000.75 kW.
fn beside_rated_power() -> Vec<Readings> {
    let odd = s_with(&[(mcr(0)[0], 8_001), (mcr(0)[1], 8_001)]);
    vec![
        (trial_at(ship_s(), 6_001, 0), by_powers(6_000.0, 6_001.0), vec![("a trial one kW above P_ME taken for rated", 14.0)]),
        (trial_at(ship_s(), 5_999, 0), by_powers(6_000.0, 5_999.0), vec![("a trial one kW below P_ME taken for rated", 14.0)]),
        (trial_at(ship_s(), 8_000, 0), by_powers(6_000.0, 8_000.0), vec![("a trial at MCR taken for rated", 14.0)]),
        (trial_at(odd, 6_000, 0), by_powers(6_000.75, 6_000.0), vec![("P_ME rounded down for the trial", 14.0)]),
        (trial_at(odd, 6_001, 0), by_powers(6_000.75, 6_001.0), vec![("P_ME rounded up for the trial", 14.0)]),
    ]
}

// V_ref of S by a trial at design draught and rated power, with that k and so much of Capacity.
fn by_draught(k: f64, part: f64) -> f64 {
    14.0 * k.cbrt() * part.powf(2.0 / 9.0)
}

// S, 50,000 t, with 40,000 t on trial: k is 0.97.
fn draughts() -> Vec<Readings> {
    let design = trial_at(ship_s(), 6_000, 40_000);
    let boxes = |tonnes: u64| trial_at(s_sized(4, 60_000), 6_000, tonnes);
    vec![
        (design, by_draught(0.97, 0.8), vec![
            ("k left out", by_draught(1.0, 0.8)),
            ("k without a root", 0.97 * by_draught(1.0, 0.8)),
            ("a container ship's k for a bulk carrier", by_draught(0.95, 0.8)),
            ("deadweights left out", by_draught(0.97, 1.0)),
            ("deadweights upside down", by_draught(0.97, 1.25)),
            ("deadweights to the power 2/3", by_draught(0.97, 0.8f64.powi(3))),
            ("deadweights to the power 1/9", by_draught(0.97, 0.8f64.sqrt())),
            ("the trial's speed at design draught", 14.0),
        ]),
        (boxes(42_000), by_draught(0.95, 1.0), vec![("a container ship's k left out", 14.0)]),
        (boxes(60_000), by_draught(0.95, 60.0 / 42.0), vec![("a container ship's deadweight for Capacity", by_draught(0.95, 1.0))]),
        (boxes(40_000), by_draught(0.95, 40.0 / 42.0), vec![("70 % of the trial's deadweight too", by_draught(0.95, 28.0 / 42.0))]),
    ]
}

// k turns above 200,000 t of a bulk carrier, 100,000 t of a tanker and 120,000 t of a container ship; 120,010 t have a whole Capacity.
fn scales() -> Vec<Readings> {
    let of = |kind: u64, deadweight: u64, right: f64, wrong: f64, name: &'static str| {
        let tonnes = if kind == 4 { 7 * deadweight / 10 } else { deadweight };
        (trial_at(s_sized(kind, deadweight), 6_000, tonnes), by_draught(right, 1.0), vec![(name, by_draught(wrong, 1.0))])
    };
    vec![
        of(1, 200_000, 0.97, 1.0, "k of 1 for a bulk carrier of 200,000 t"),
        of(1, 200_001, 1.0, 0.97, "k of 0.97 for a bulk carrier of 200,001 t"),
        of(1, 150_000, 0.97, 1.0, "a tanker's k for a bulk carrier"),
        of(3, 100_000, 0.97, 1.0, "k of 1 for a tanker of 100,000 t"),
        of(3, 100_001, 1.0, 0.97, "k of 0.97 for a tanker of 100,001 t"),
        of(3, 150_000, 1.0, 0.97, "a bulk carrier's k for a tanker"),
        of(4, 120_000, 0.95, 0.93, "k of 0.93 for a container ship of 120,000 t"),
        of(4, 120_010, 0.93, 0.95, "k of 0.95 for a container ship of 120,010 t"),
        of(4, 150_000, 0.93, 1.0, "k of 1 for a large container ship"),
    ]
}

// A bulk carrier of 250,000 t, whose k is 1, beside Capacity; 8 % of her lightweight are no part of it.
fn beside_capacity() -> Vec<Readings> {
    let large = s_sized(1, 250_000);
    let at = |tonnes: u64, name: &'static str| (trial_at(large, 6_000, tonnes), by_draught(1.0, tonnes as f64 / 250_000.0), vec![(name, 14.0)]);
    let mut structural = large;
    put(&mut structural, LAYOUT, 2);
    put(&mut structural, LIGHTWEIGHT, 25_000);
    vec![
        at(249_999, "a tonne less than Capacity taken for it"),
        at(250_001, "a tonne more than Capacity taken for it"),
        (trial_at(large, 6_001, 250_000), by_powers(6_000.0, 6_001.0), vec![("one kW off at Capacity", 14.0)]),
        (trial_at(structural, 6_000, 250_000), 14.0, vec![("the trial beside Capacity with f_i", by_draught(1.0, 250.0 / 252.0))]),
        (trial_at(structural, 6_000, 252_000), by_draught(1.0, 252.0 / 250.0), vec![("Capacity with f_i taken for Capacity", 14.0)]),
    ]
}

// V_avg and MCR_avg by a row of the table, of that deadweight for either.
fn averages(row: [f64; 4], speed_size: f64, power_size: f64) -> (f64, f64) {
    (row[0] * speed_size.powf(row[1]), row[2] * power_size.powf(row[3]))
}

// A ship without a recorded speed.
fn by_statistics(mut block: Block) -> Block {
    put(&mut block, METHOD, 4);
    put_both(&mut block, SPEED, 0);
    sealed(block)
}

// S has V_avg 14.28 knots, of which 5 % are less than one; the vehicle carrier of 60,000 t 20.33, of which 5 % are more.
fn margins() -> Vec<Readings> {
    let (bulk, vehicles) = ([10.6585, 0.02706, 23.7510, 0.54087], [16.6773, 0.01802, 262.7693, 0.39973]);
    let (average, rated) = averages(bulk, 5e4, 5e4);
    let root = |sum: f64, other: f64| (sum / other).cbrt();
    let right = root(6_000.0, 0.75 * rated);
    let (quick, large) = averages(vehicles, 6e4, 6e4);
    let large_root = root(9_000.0, 0.75 * large);
    let (by_tonnage, tonnage_rated) = averages(vehicles, 1e5, 1e5);
    let mut carrier = vehicle_carrier(0);
    put(&mut carrier, DEADWEIGHT, 60_000);
    put(&mut carrier, GROSS_TONNAGE, 100_000);
    vec![
        (by_statistics(ship_s()), 0.95 * average * right, vec![
            ("one knot where 5 % is less", (average - 1.0) * right),
            ("no margin", average * right),
            ("5 % and one knot", (0.95 * average - 1.0) * right),
            ("MCR_avg without 0.75", 0.95 * average * root(6_000.0, rated)),
            ("MCR beside 0.75 MCR_avg", 0.95 * average * root(8_000.0, 0.75 * rated)),
            ("P_ME and MCR_avg upside down", 0.95 * average / right),
            ("V_avg less its margin alone", 0.95 * average),
        ]),
        (by_statistics(carrier), (quick - 1.0) * large_root, vec![
            ("5 % where one knot is less", 0.95 * quick * large_root),
            ("one knot off behind the root", quick * large_root - 1.0),
            ("gross tonnage for deadweight", (by_tonnage - 1.0) * root(9_000.0, 0.75 * tonnage_rated)),
        ]),
    ]
}

// Container ships with an engine of 60,000 kW, P_ME 45,000: B is at most 80,000 and E at most 95,000. All have V_avg above 20 knots.
fn caps() -> Vec<Readings> {
    let row = [3.2395, 0.18294, 0.5042, 1.03046];
    let speed = |speed_size: f64, power_size: f64| {
        let (average, rated) = averages(row, speed_size, power_size);
        (average - 1.0) * (45_000.0 / (0.75 * rated)).cbrt()
    };
    let boxes = |deadweight: u64| {
        let mut block = s_sized(4, deadweight);
        put_both(&mut block, mcr(0), 60_000);
        by_statistics(block)
    };
    let (bulk, rated) = averages([10.6585, 0.02706, 23.7510, 0.54087], 15e4, 15e4);
    let (small, capped) = averages([10.6585, 0.02706, 23.7510, 0.54087], 8e4, 9.5e4);
    let at = |average: f64, other: f64| 0.95 * average * (8_000.0 / other).cbrt();
    vec![
        (boxes(150_000), speed(8e4, 9.5e4), vec![
            ("no caps", speed(15e4, 15e4)),
            ("80,000 t for both caps", speed(8e4, 8e4)),
            ("95,000 t for both caps", speed(9.5e4, 9.5e4)),
            ("caps exchanged", speed(9.5e4, 8e4)),
        ]),
        (boxes(90_000), speed(8e4, 9e4), vec![("a cap on V_avg alone left out", speed(9e4, 9e4)), ("70 % under the caps", speed(6.3e4, 6.3e4))]),
        (boxes(50_000), speed(5e4, 5e4), vec![("70 % of deadweight in method 4", speed(3.5e4, 3.5e4))]),
        (by_statistics(s_sized(1, 150_000)), at(bulk, rated), vec![("a container ship's caps for a bulk carrier", at(small, capped))]),
    ]
}

// A recorded speed has no enclosure but itself, whatever else is in the ship's index.
fn recorded() -> Vec<Lines> {
    let of = |block: Block, knots: u64, name: &'static str| {
        let (speed, wide) = (1_000_000 * knots, [1_000_000 * knots - 1, 1_000_000 * knots + 1]);
        (block, bounds([speed, speed], [speed, speed]), vec![(name, bounds(wide, wide))])
    };
    vec![
        of(trial_at(ship_s(), 6_000, 0), 14, "an enclosure at rated power"),
        of(trial_at(s_with(&[(CARGO_VOLUME, 100_000)]), 6_000, 0), 14, "an enclosure at rated power with light cargo"),
        of(trial_at(vehicle_carrier(0), 9_000, 0), 18, "an enclosure at rated power of a light vehicle carrier"),
        of(trial_at(coaster(1_400), 3_000, 0), 14, "an enclosure at rated power of a general cargo ship"),
        of(trial_at(s_sized(1, 250_000), 6_000, 250_000), 14, "an enclosure at design draught"),
        of(trial_at(s_sized(3, 100_001), 6_000, 100_001), 14, "an enclosure at a tanker's design draught"),
        of(s_with(&[(CARGO_VOLUME, 100_000)]), 14, "an enclosure of a declared speed with light cargo"),
        of(coaster(1_400), 14, "an enclosure of a general cargo ship's declared speed"),
        of(vehicle_carrier(2), 18, "an enclosure of a new ship's speed"),
    ]
}

// Which ranges enter the speed, and of which ship. By the powers 7,900 kW would make 13.941421 of 14 knots, and 13.443513 of 13.5.
fn ranges() -> Vec<Lines> {
    let (high, low) = ([14_000_000, 14_000_000], [13_500_000, 13_500_000]);
    let power = s_with(&[(mcr(0)[0], 7_900)]);
    let both = s_with(&[(mcr(0)[0], 7_900), (SPEED[0], 1_350)]);
    let consumption = trial_at(s_with(&[(consumption(0).0[0], 1_750)]), 3_000, 0);
    vec![
        (power, bounds(high, high), vec![
            ("a declared speed by the rated power", bounds(high, [13_941_421, 13_941_422])),
            ("a declared speed by the rated power, the least first", bounds([13_941_421, 13_941_422], high)),
            ("a range of rated power refused", "0 refused 14".to_string()),
        ]),
        (both, bounds(high, low), vec![
            ("the least favourable ship first", bounds(low, high)),
            ("one ship for both", bounds(high, high)),
            ("the low speed by the rated power", bounds(high, [13_443_513, 13_443_514])),
        ]),
        (consumption, line(by_powers(6_000.0, 3_000.0)), vec![
            ("another pair where consumption is a range", bounds([17_638_894, 17_638_895], [17_638_893, 17_638_895])),
        ]),
    ]
}

// How many wrong readings there are, and the names of those that were not caught.
pub fn uncaught() -> (usize, Vec<&'static str>) {
    let mut ships: Vec<Lines> = recorded();
    ships.extend(ranges());
    for more in vec![powers(), limited_powers(), beside_rated_power(), draughts(), scales(), beside_capacity(), margins(), caps()] {
        let lines = |(block, knots, wrong): Readings| -> Lines {
            (block, line(knots), wrong.into_iter().map(|(name, knots)| (name, line(knots))).collect())
        };
        ships.extend(more.into_iter().map(lines));
    }
    misread(&ships, &|block, line| knots::verdict(0, desk::speeds(block), line))
}
