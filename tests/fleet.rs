// The test of the program `fleet` from outside: blocks of every kind from a fixed seed, each line held to a reference
// that was written from the customer's document alone (desk.rs).
// Usage: fleet PROGRAM [ARGUMENT...]
#[path = "breaks.rs"]
mod breaks;
#[path = "desk.rs"]
mod desk;
#[path = "edges.rs"]
mod edges;
#[path = "editions.rs"]
mod editions;
#[path = "hold.rs"]
mod hold;
#[path = "hulls.rs"]
mod hulls;
#[path = "program.rs"]
mod program;
#[path = "rated.rs"]
mod rated;
#[path = "runs.rs"]
mod runs;
#[path = "ships.rs"]
mod ships;
#[path = "slips.rs"]
mod slips;
#[path = "suite.rs"]
mod suite;
#[path = "trials.rs"]
mod trials;

use desk::{Answer, BLOCK};
use runs::{accepted, new_ships, Tested};
use ships::*;
use std::process::exit;
use trials::Trials;

// The reference itself keeps the document's figures.
fn reference_figures() -> Vec<(&'static str, bool)> {
    let limited = |limit: u32| desk::Engine { mcr: [8_000, 8_000], limit, ..Default::default() }.main_power(0);
    let by_rule = |mcr: u32| {
        let mut ship = desk::Ship { engines: 1, aux_method: 1, ..Default::default() };
        ship.engine[0].mcr = [mcr, mcr];
        ship.aux_power(0)
    };
    let container = desk::Ship { kind: 4, deadweight: 80_000, ..Default::default() };
    let ratio = |kind, deadweight, other| {
        desk::Ship { kind, deadweight, cargo_volume: other, gross_tonnage: other, ..Default::default() }.has_light_cargo()
    };
    vec![
        ("P_ME with a limiter", [limited(7_000), limited(7_228), limited(7_229)] == [581_000, 599_924, 600_000]),
        ("P_AE by rule", [by_rule(9_999), by_rule(10_000), by_rule(10_001)] == [499_950, 500_000, 500_025]),
        ("Capacity of a container ship", container.capacity() == 560_000),
        ("f_c at 0.55", !ratio(1, 55_000, 100_000) && ratio(1, 54_999, 100_000)),
        ("f_c at 0.35", !ratio(7, 35_000, 100_000) && ratio(7, 34_999, 100_000)),
        ("15 knots", (desk::speed(&desk::fields(&fifteen_knots()), 0) - 15.0).abs() < 1e-12),
    ]
}

// The program keeps the document's figures; these lines are in the document or follow by hand.
fn figures(tested: &Tested) {
    let example = [ship_s(), [0; BLOCK]].concat();
    tested.prints("the document's example", &example, "0 9074729 5170857 5170858\n1 refused 2\n");
    let mut blocks = vec![
        (like_s(&|block| put(block, ICE, 1)), "9074729 4924625 4924626"),
        (like_s(&|block| put(block, ICE, 2)), "9074729 5170857 5170858"),
        (like_s(&|block| put(block, ICE, 3)), "refused 12"),
        (like_s(&|block| put(block, ICE, 255)), "refused 12"),
        (like_s(&|block| put_consumption(block, 0, [0, 0], 0, 3)), "9074729 5437771 5437772"),
        (s_with_ranges(), "9074729 5037400 5362371"),
        (like_s(&|block| put_consumption(block, 0, [0, 0], 3, 1)), "refused 10"),
        (like_s(&|block| put_consumption(block, 4, [0, 0], 1, 1)), "refused 10"),
        (like_s(&|block| put_consumption(block, 0, [0, 0], 0, 1)), "refused 10"),
        // f_i: 5,170,857.142857 over 1.016, 1.00016 and 1.32.
        (s_in_layout_2(0), "9074729 5170857 5170858"),
        (s_in_layout_2(10_000), "9074729 5089426 5089427"),
        (s_in_layout_2(100), "9074729 5170029 5170030"),
        (s_in_layout_2(200_000), "9074729 3917316 3917317"),
        (s_in_layout_2(99), "refused 18"),
        (s_in_layout_2(200_001), "refused 18"),
        (like_s(&|block| put(block, LIGHTWEIGHT, 10_000)), "refused 16"),
        (like_s(&|block| put(block, LAYOUT, 3)), "refused 3"),
    ];
    blocks.extend(edition_figures());
    blocks.extend(edition_refusals());
    blocks.extend(vehicle_carriers());
    blocks.extend(rated_trials());
    tested.prints_words("the figures", &blocks);
    trial_figure(tested);
    coaster_figures(tested);
    edition_enclosures(tested);
}

// S as a new ship: 6,000 x 3.114 x 180 + 400 x 3.206 x 200 = 3,619,600 g/h over 50,000 t x 14 knots is 5.170857 g, with f_m 1.05
// 4.924625 g. Ice class 1 (IA) has it in editions 0 (EEXI) and 2 (EEDI as amended), class 2 (IC) in none.
// Her ranges: 3,526,180 / 700,000 = 5.0374 g and 3,619,600 / 675,000 = 5.362370 g, with f_m 4.797523 and 5.107019 g.
fn edition_figures() -> Vec<(Block, &'static str)> {
    let (plain, iced) = ("9074729 5170857 5170858", "9074729 4924625 4924626");
    let s = |class: u64, edition: u64| in_edition(like_s(&|block| put(block, ICE, class)), edition);
    let mut ranged = s_with_ranges();
    put(&mut ranged, ICE, 1);
    let mut figures = vec![
        (in_edition(ranged, 0), "9074729 4797523 5107020"),
        (in_edition(ranged, 1), "9074729 5037400 5362371"),
        (in_edition(ranged, 2), "9074729 4797523 5107020"),
        // f_i stays: 5,170,857.142857 over 1.016.
        (in_edition(s_in_layout_2(10_000), 1), "9074729 5089426 5089427"),
        (in_edition(s_in_layout_2(10_000), 2), "9074729 5089426 5089427"),
    ];
    for (class, lines) in [[plain, plain, plain], [iced, plain, iced], [plain, plain, plain]].iter().enumerate() {
        figures.extend((0..3).map(|edition| (s(class as u64, edition as u64), lines[edition])));
    }
    figures
}

// What no EEDI has, beside an EEXI that has it. A limiter of 8,000 kW leaves P_ME at 6,000, which is below 83 % of it. Auxiliaries
// without a source have 400 x 3.114 x 215 = 267,804 g/h, and 3,630,924 / 700,000 is 5.187034 g.
fn edition_refusals() -> Vec<(Block, &'static str)> {
    let limited = like_s(&|block| put(block, limit(0), 8_000));
    let without = |engine: usize| like_s(&|block| put_consumption(block, engine, [0, 0], 0, 3));
    let design = like_s(&|block| {
        for (field, value) in &[(METHOD, 3), (TRIAL_POWER, 6_000), (TRIAL_DEADWEIGHT, 40_000)] {
            put(block, *field, *value);
        }
    });
    let statistical = like_s(&|block| {
        put(block, METHOD, 4);
        put_both(block, SPEED, 0);
    });
    let mut figures = vec![
        (in_edition(limited, 0), "9074729 5170857 5170858"),
        (in_edition(without(0), 0), "9074729 5437771 5437772"),
        (in_edition(without(4), 0), "9074729 5187034 5187035"),
        // In layout 1 no figure stands there.
        (like_s(&|block| put(block, EDITION, 1)), "refused 16"),
        (like_s(&|block| put(block, EDITION, 255)), "refused 16"),
    ];
    for edition in [3, 127, 128, 255].iter() {
        figures.push((in_edition(ship_s(), *edition), "refused 19"));
    }
    for edition in 1..4 {
        for ship in [limited, without(0), without(4), fifteen_knots(), design, statistical].iter() {
            figures.push((in_edition(*ship, edition), "refused 19"));
        }
        figures.push((in_edition(like_s(&|block| put(block, limit(1), 8_000)), edition), "refused 16"));
        figures.push((in_edition(like_s(&|block| put(block, Field(142, 1), 1)), edition), "refused 16"));
        figures.push((in_edition(like_s(&|block| put(block, Field(143, 1), 1)), edition), "refused 16"));
        figures.push((in_edition(s_in_layout_2(99), edition), "refused 18"));
    }
    figures
}

// The vehicle carrier emits 9,000 x 3.114 x 180 = 5,044,680 g/h by her main engine and 550 x 3.206 x 200 = 352,660 by her auxiliaries,
// whose power is 2.5 % of 12,000 kW and 250: 5,397,340 over 20,000 t x 18 knots is 14.9926111 g. That is her EEDI, for f_c is 1 there;
// with f_m it is 14.2786772 g.
fn vehicle_carriers() -> Vec<(Block, &'static str)> {
    let iced = |edition: u64| {
        let mut block = vehicle_carrier(edition);
        put(&mut block, ICE, 1);
        sealed(block)
    };
    vec![
        (vehicle_carrier(1), "9074729 14992611 14992612"),
        (vehicle_carrier(2), "9074729 14992611 14992612"),
        (iced(1), "9074729 14992611 14992612"),
        (iced(2), "9074729 14278677 14278678"),
    ]
}

// S on a trial of 14.50 knots at 6,000 kW, which is her P_ME: 3,619,600 g/h over 50,000 t x 14.5 knots is 4.992551724 g. With 175.0 to
// 180.0 g/kWh her most favourable ship has 3,526,180 g/h and 4.863696 g. With a limit of 7,050 kW (5,851.5) and a second engine of
// 2,002 kW (1,501.5) the sum is 7,353 kW; the auxiliaries have 500.05 kW, all together 4,442,135.62 g/h and 6.127083 g.
// At design draught and Capacity, k being 1: over 250,000 t 0.998510 g, with a lightweight of 25,000 t over 252,000 t 0.990585 g and in
// class IA 0.943414 g; as a tanker over 100,001 t 2.496250 g.
fn rated_trials() -> Vec<(Block, &'static str)> {
    let at = |power: u64, tonnes: u64, figures: &[(Field, u64)]| like_s(&|block| {
        for (field, value) in [(METHOD, if tonnes > 0 { 3 } else { 2 }), (TRIAL_POWER, power), (TRIAL_DEADWEIGHT, tonnes)].iter().chain(figures) {
            put(block, *field, *value);
        }
        put_both(block, SPEED, 1_450);
    });
    let second = [(ENGINES, 2), (limit(0), 7_050), (mcr(1)[0], 2_002), (mcr(1)[1], 2_002)];
    let mut two = at(7_353, 0, &second);
    put_consumption(&mut two, 1, [1_800, 1_800], 3, 1);
    let large = [(DEADWEIGHT, 250_000), (CARGO_VOLUME, 300_000)];
    let structural = [(LAYOUT, 2), (DEADWEIGHT, 250_000), (CARGO_VOLUME, 300_000), (LIGHTWEIGHT, 25_000)];
    let mut iced = at(6_000, 250_000, &structural);
    put(&mut iced, ICE, 1);
    vec![
        (at(6_000, 0, &[]), "9074729 4992551 4992552"),
        (at(6_000, 0, &[(consumption(0).0[0], 1_750)]), "9074729 4863696 4992552"),
        (sealed(two), "9074729 6127083 6127084"),
        (at(6_000, 250_000, &large), "9074729 998510 998511"),
        (at(6_000, 250_000, &structural), "9074729 990585 990586"),
        (sealed(iced), "9074729 943414 943415"),
        (at(6_000, 100_001, &[(TYPE, 3), (CARGO_VOLUME, 0), (DEADWEIGHT, 100_001)]), "9074729 2496250 2496251"),
    ]
}

// A third over 0.35 is 1 / 1.05, so the vehicle carrier's f_c is 1.05^0.8 = 1.0398039 in the EEXI: 14.9926111 over it is 14.4186911 g.
// S with 100,000 m³ has R 0.5 and f_c 0.5^-0.15 = 1.1095695 in every edition: 5.1708571 over it is 4.6602374 g.
// The coaster at 14 knots has f_j and f_l in every edition: 20.7327835 g, with f_m 19.7455081 g, and with cranes 20.0814154 g.
fn edition_enclosures(tested: &Tested) {
    encloses(tested, "the vehicle carrier's EEXI", vehicle_carrier(0), 14_418_691, 14_418_692);
    let mut iced = coaster(1_400);
    put(&mut iced, ICE, 1);
    let mut lifting = coaster(1_400);
    put_cranes(&mut lifting, &[[400, 250], [600, 200]]);
    for edition in 0..3 {
        let light = like_s(&|block| put(block, CARGO_VOLUME, 100_000));
        encloses(tested, "S with light cargo", in_edition(light, edition), 4_660_237, 4_660_238);
        encloses(tested, "the coaster with cranes in an edition", in_edition(lifting, edition), 20_081_415, 20_081_416);
        let (floor, ceiling) = if edition == 1 { (20_732_783, 20_732_784) } else { (19_745_508, 19_745_509) };
        encloses(tested, "the coaster in class IA", in_edition(iced, edition), floor, ceiling);
    }
}

// 6,750 x 3.114 x 180 + 450 x 3.206 x 200 = 4,072,050 g/h; over 50,000 t x 15 knots that is 5.4294 g.
fn trial_figure(tested: &Tested) {
    encloses(tested, "the trial at 15 knots", fifteen_knots(), 5_429_400, 5_429_400);
}

// The coaster emits 3,000 x 3.114 x 180 = 1,681,560 g/h by her main engine and 200 x 3.206 x 200 = 128,240 by her auxiliaries.
// Fn is 0.5144 V / sqrt(196.2) and Cb 8,000 / 10,546.2 = 0.758567:
//   10 knots: Fn 0.367241, where f_j would be 1.893, so 1; 1,809,800 / (5,500 x 10) = 32.9054545 g
//   14 knots: Fn 0.514138, f_j 0.8731085; 1,596,424.331 / (5,500 x 14) = 20.7327835 g
//   18 knots: Fn 0.661034, so 0.6, f_j 0.6120729; 1,157,477.367 / (5,500 x 18) = 11.6916906 g
//   12 knots on trial at 1,500 kW, so 15.1190526: Fn 0.555234, f_j 0.7315705; 1,358,419.647 / (5,500 x 15.1190526) = 16.3360362 g
//   V_avg 12.422936 less 5 %, MCR_avg 2,444.981, so 13.9062293: Fn 0.510694, f_j 0.8867090; 1,619,294.358 over that = 21.1716022 g
// Cranes of 40 t at 25 m and 60 t at 20 m: 178.4 t join the 5,500, which makes 31.8716540 g at 10 knots, 20.0814154 g at 14.
fn coaster_figures(tested: &Tested) {
    let with_cranes = |mut block: Block| {
        put_cranes(&mut block, &[[400, 250], [600, 200]]);
        sealed(block)
    };
    let by_method = |method: u64, speed: u64, trial_power: u64| {
        let mut block = coaster(speed);
        put(&mut block, METHOD, method);
        put(&mut block, TRIAL_POWER, trial_power);
        sealed(block)
    };
    encloses(tested, "the coaster at 10 knots", coaster(1_000), 32_905_454, 32_905_455);
    encloses(tested, "the coaster at 14 knots", coaster(1_400), 20_732_783, 20_732_784);
    encloses(tested, "the coaster at 18 knots", coaster(1_800), 11_691_690, 11_691_691);
    encloses(tested, "the coaster on trial", by_method(2, 1_200, 1_500), 16_336_036, 16_336_037);
    encloses(tested, "the coaster by statistics", by_method(4, 0, 0), 21_171_602, 21_171_603);
    encloses(tested, "the coaster with cranes at 10 knots", with_cranes(coaster(1_000)), 31_871_653, 31_871_654);
    encloses(tested, "the coaster with cranes at 14 knots", with_cranes(coaster(1_400)), 20_081_415, 20_081_416);
}

// The index lies between two whole numbers, so the bounds enclose both, and are no farther apart than they may be.
fn encloses(tested: &Tested, name: &str, block: Block, floor: u64, ceiling: u64) {
    let text = tested.text(name, &block);
    let figures: Vec<u64> = text.split_whitespace().filter_map(|word| word.parse().ok()).collect();
    match figures[..] {
        [0, 9_074_729, lower, upper] if lower <= floor && ceiling <= upper && 100_000 * (upper - lower) <= upper + 200_000 => {}
        _ => tested.fail(&format!("{} should enclose {} and {} but printed {}", name, floor, ceiling, text)),
    }
}

#[derive(Default)]
struct Count {
    // The EEXI by type and method, and how many of these with an f_c other than 1.
    accepted: [[u64; 5]; 9],
    light: [[u64; 5]; 9],
    // The EEXI in layout 2 by type; those with f_i by whether they are exact; those with a limiter, without a source and by methods 2
    // to 4, which no EEDI has.
    newer: [u64; 9],
    structural: [u64; 2],
    no_eedi: [u64; 3],
    coasters: Coasters,
    new_ships: NewShips,
    trials: Trials,
    ice: [u64; 3],
    whole: u64,
    exact: u64,
    near: u64,
    exact_ranged: u64,
    near_ranged: u64,
    refused: [u64; 20],
}

// EEDIs, by what changes them; MEPC.308(73) alone stands before the amended edition.
#[derive(Default)]
struct NewShips {
    accepted: [[u64; 9]; 2],
    ice: [[u64; 3]; 2],
    // By type, below 0.55 and 0.35: a bulk carrier then has an f_c, a vehicle carrier has none.
    light: [[u64; 9]; 2],
    structural: u64,
    with_cranes: u64,
    ranged: u64,
    whole: u64,
}

impl NewShips {
    fn add(&mut self, ship: &desk::Ship, answer: Answer) {
        let edition = ship.edition as usize - 1;
        self.accepted[edition][ship.kind as usize] += 1;
        self.ice[edition][ship.ice as usize] += 1;
        self.light[edition][ship.kind as usize] += ship.has_light_cargo() as u64;
        self.structural += (ship.lightweight > 0) as u64;
        self.with_cranes += (ship.cranes > 0) as u64;
        self.ranged += ship.has_ranges() as u64;
        self.whole += matches!(answer, Answer::Exact { lower, upper, .. } if lower == upper) as u64;
    }
    // What is counted, how many there are and how many there have to be.
    fn wants(&self) -> Vec<(String, u64, u64)> {
        let mut wants = vec![
            ("EEDI".to_string(), self.accepted.iter().flatten().sum(), 20_000),
            ("EEDI with f_i".to_string(), self.structural, 2_000),
            ("EEDI with cranes".to_string(), self.with_cranes, 2_000),
            ("EEDI, ranged".to_string(), self.ranged, 3_000),
            ("EEDI, exact and whole".to_string(), self.whole, 300),
        ];
        for edition in 0..2 {
            let of = |what: String| format!("EEDI {}, {}", edition + 1, what);
            wants.extend((1..9).map(|kind| (of(format!("type {}", kind)), self.accepted[edition][kind], 1_000)));
            wants.extend((0..3).map(|class| (of(format!("ice class {}", class)), self.ice[edition][class], 2_000)));
            for kind in [1, 7].iter() {
                let (light, all) = (self.light[edition][*kind], self.accepted[edition][*kind]);
                wants.push((of(format!("light cargo, type {}", kind)), light, 300));
                wants.push((of(format!("no light cargo, type {}", kind)), all - light, 300));
            }
        }
        wants
    }
    fn print(&self) {
        for edition in 0..2 {
            let (ice, light) = (self.ice[edition], [self.light[edition][1], self.light[edition][7]]);
            println!("fleet: EEDI {} accepted by types 1-8: {:?}", edition + 1, &self.accepted[edition][1..]);
            println!("fleet: EEDI {} in ice classes 0, 1 and 2: {:?}; light bulk and vehicle carriers {:?}", edition + 1, ice, light);
        }
        let NewShips { accepted, ranged, structural, with_cranes, whole, .. } = self;
        let all: u64 = accepted.iter().flatten().sum();
        println!("fleet: EEDI {}, of them with ranges {}, with f_i {}, with cranes {}, whole {}", all, ranged, structural, with_cranes, whole);
    }
}

// General cargo ships, by what changes their index.
#[derive(Default)]
struct Coasters {
    ranged: u64,
    with_cranes: u64,
    // Fn up to 0.6 and above; of those up to it f_j up to 1 and above, and likewise of those above it.
    caps: [[u64; 2]; 2],
    // Fn and f_j within a ten-thousandth of their caps, on either side.
    near_caps: [[u64; 2]; 2],
}

impl Coasters {
    fn add(&mut self, ship: &desk::Ship) {
        let froude = ship.froude(desk::speed(ship, 0));
        let factor = ship.hull_factor(froude.min(0.6));
        let sides = [(froude, 0.6), (factor, 1.0)];
        self.ranged += ship.has_ranges() as u64;
        self.with_cranes += (ship.cranes > 0) as u64;
        self.caps[(froude > 0.6) as usize][(factor > 1.0) as usize] += 1;
        for (place, (figure, cap)) in sides.iter().enumerate().filter(|(_, (figure, cap))| (figure / cap - 1.0).abs() < 1e-4) {
            self.near_caps[place][(figure > cap) as usize] += 1;
        }
    }
}

impl Count {
    fn add(&mut self, block: &[u8], answer: Answer) {
        let ship = match answer {
            Answer::Refused(rule) => return self.refused[rule as usize] += 1,
            _ => desk::fields(block),
        };
        self.ice[ship.ice as usize] += 1;
        match ship.edition {
            0 => self.add_eexi(&ship, answer),
            _ => self.new_ships.add(&ship, answer),
        }
        if ship.kind == 8 {
            self.coasters.add(&ship);
        }
        if ship.method == 2 || ship.method == 3 {
            self.trials.add(block, &ship, answer);
        }
        if let Answer::Exact { lower, upper, .. } = answer {
            self.whole += (lower == upper) as u64;
        }
        match (answer, ship.has_ranges()) {
            (Answer::Exact { .. }, true) => self.exact_ranged += 1,
            (Answer::Exact { .. }, false) => self.exact += 1,
            (_, true) => self.near_ranged += 1,
            (_, false) => self.near += 1,
        }
    }
    fn add_eexi(&mut self, ship: &desk::Ship, answer: Answer) {
        let (kind, method) = (ship.kind as usize, ship.method as usize);
        self.accepted[kind][method] += 1;
        self.light[kind][method] += ship.has_light_cargo() as u64;
        if ship.layout == 2 {
            let used = &ship.engine[..ship.engines as usize];
            self.newer[kind] += 1;
            self.structural[matches!(answer, Answer::Exact { .. }) as usize] += (ship.lightweight > 0) as u64;
            self.no_eedi[0] += used.iter().any(|engine| engine.limit > 0) as u64;
            self.no_eedi[1] += used.iter().chain(Some(&ship.auxiliary)).any(|engine| engine.source == 3) as u64;
            self.no_eedi[2] += (method > 1) as u64;
        }
    }
    // A kind that hardly occurs would make the test idle.
    fn too_few(&self) -> Vec<String> {
        let mut few = Vec::new();
        let mut want = |what: String, count: u64, least: u64| if count < least { few.push(format!("{}: {} of {}", what, count, least)) };
        for (kind, method) in kinds() {
            let least = if kind == 8 { 7_000 } else { 2_000 };
            want(format!("type {} method {}", kind, method), self.accepted[kind as usize][method as usize], least);
            if kind == 1 || kind == 7 {
                want(format!("light cargo, type {} method {}", kind, method), self.light[kind as usize][method as usize], 500);
            }
        }
        for class in 0..3 {
            want(format!("ice class {}", class), self.ice[class], 15_000);
        }
        for rule in (1..17).chain(18..20) {
            want(format!("refusal {}", rule), self.refused[rule], 500);
        }
        for kind in 1..9 {
            want(format!("EEXI in layout 2, type {}", kind), self.newer[kind], if kind == 8 { 20_000 } else { 200 });
        }
        for (way, what) in ["with a limiter", "without a source", "by methods 2-4"].iter().enumerate() {
            want(format!("EEXI in layout 2, {}", what), self.no_eedi[way], 5_000);
        }
        for (what, count, least) in self.new_ships.wants().into_iter().chain(self.trials.wants()) {
            want(what, count, least);
        }
        want("f_i".to_string(), self.structural[0] + self.structural[1], 10_000);
        want("f_i, exact".to_string(), self.structural[1], 2_000);
        want("general cargo, ranged".to_string(), self.coasters.ranged, 5_000);
        want("general cargo with cranes".to_string(), self.coasters.with_cranes, 10_000);
        for side in 0..4 {
            want(format!("side {} of both caps", side), self.coasters.caps[side / 2][side % 2], 1_000);
            want(format!("side {} near a cap", side), self.coasters.near_caps[side / 2][side % 2], 200);
        }
        want("exact and whole".to_string(), self.whole, 300);
        for (what, count) in &[("exact", self.exact), ("exact ranged", self.exact_ranged), ("near", self.near), ("near ranged", self.near_ranged)] {
            want(what.to_string(), *count, 3_000);
        }
        few
    }
    fn print(&self) {
        for kind in 1..9 {
            let by_method: Vec<String> = (1..5).map(|method| self.accepted[kind][method].to_string()).collect();
            println!("fleet: EEXI of type {} accepted by methods 1-4: {}", kind, by_method.join(" "));
        }
        let light: u64 = self.light.iter().flatten().sum();
        println!("fleet: exact {} and ranged {}, {} of them whole", self.exact, self.exact_ranged, self.whole);
        println!("fleet: near {} and ranged {}; light cargo {}", self.near, self.near_ranged, light);
        println!("fleet: ice classes 0, 1 and 2 accepted: {:?}", self.ice);
        println!("fleet: EEXI in layout 2 by types 1-8: {:?}; with f_i {:?}, the latter exact", &self.newer[1..], self.structural);
        println!("fleet: EEXI in layout 2 with a limiter, without a source, by methods 2-4: {:?}", self.no_eedi);
        self.new_ships.print();
        self.trials.print();
        let Coasters { ranged, with_cranes, caps, near_caps } = &self.coasters;
        println!("fleet: general cargo with ranges {}, with cranes {}", ranged, with_cranes);
        println!("fleet: Fn up to 0.6 and above, each with f_j up to 1 and above: {:?}; close to these caps: {:?}", caps, near_caps);
        let refused: Vec<String> = (1..17).chain(18..20).map(|rule| format!("{}: {}", rule, self.refused[rule])).collect();
        println!("fleet: refused by {}", refused.join(", "));
    }
}

fn answers_of(bytes: &[u8]) -> Vec<Answer> {
    bytes.chunks(BLOCK).map(desk::answer).collect()
}

// What is wrong with the lines for these bytes; the blocks are counted.
fn held(bytes: &[u8], text: &str, count: &mut Count) -> Vec<String> {
    let answers = answers_of(bytes);
    bytes.chunks(BLOCK).zip(&answers).for_each(|(block, answer)| count.add(block, *answer));
    hold::faults(&answers, text)
}

// The same of ships that are counted already.
fn held_again(bytes: &[u8], text: &str) -> Vec<String> {
    hold::faults(&answers_of(bytes), text)
}

// IB and IC (2) have f_m 1, as a ship without a class (0) has.
fn same_in_class_2(tested: &Tested, all: &[Block]) -> usize {
    tested.same_words("ice class", &accepted(all, kinds(), |_| true, 100), ICE, &[0, 2], &mut held_again)
}

// Types 1 to 7 in layout 2 with no newer figure are what they are in layout 1.
fn same_in_layout_2(tested: &Tested, all: &[Block]) -> usize {
    tested.same_words("layout", &accepted(all, older_kinds(), |ship| ship.layout == 1, 300), LAYOUT, &[1, 2], &mut held_again)
}

// Under MEPC.308(73) alone no ice class has an f_m.
fn same_in_every_class(tested: &Tested, all: &[Block]) -> usize {
    let ships = new_ships(all, |ship| ship.edition == 1, 300);
    tested.same_words("EEDI 1, ice class", &ships, ICE, &[0, 1, 2], &mut held_again)
}

// Only f_m and the vehicle carriers' f_c tell the editions apart: a ship without either has the same words in all three, and one with
// f_m in the two that have it.
fn same_in_every_edition(tested: &Tested, all: &[Block]) -> usize {
    let plain = new_ships(all, |ship| ship.edition > 0 && ship.ice != 1 && (ship.kind != 7 || !ship.has_light_cargo()), 300);
    let iced = new_ships(all, |ship| ship.edition > 0 && ship.ice == 1 && (ship.kind != 7 || !ship.has_light_cargo()), 100);
    tested.same_words("edition", &plain, EDITION, &[0, 1, 2], &mut held_again)
        + tested.same_words("class IA, edition", &iced, EDITION, &[0, 2], &mut held_again)
}

// Wrong lines must be found wrong before right ones are asked for.
fn self_check(tested: &Tested) {
    for (name, right) in reference_figures() {
        if !right {
            tested.fail(&format!("the reference is wrong about {}", name));
        }
    }
    let ic = like_s(&|block| put(block, ICE, 2));
    let light = like_s(&|block| put(block, CARGO_VOLUME, 100_000));
    let mut ranged = s_with_ranges();
    put(&mut ranged, CARGO_VOLUME, 100_000);
    let answers: Vec<Answer> = [ic, light, sealed(ranged), [0; BLOCK]].iter().map(|block| desk::answer(block)).collect();
    let (slips, mut missed) = hold::uncaught(&answers);
    let (readings, unseen) = slips::uncaught();
    missed.extend(unseen);
    if !missed.is_empty() {
        tested.fail(&format!("not caught: {}", missed.join(", ")));
    }
    println!("fleet: {} kinds of wrong output and {} of wrong readings, each caught", slips, readings);
}

fn main() {
    let tested = Tested::named("fleet");
    self_check(&tested);
    figures(&tested);
    tested.prints("no input", &[], "");
    let all = tested.or_fail("the blocks", suite::blocks(&mut Random(suite::SEED)));
    let mut count = Count::default();
    let (lines, mut wrong) = tested.all_lines(&all, &mut |bytes, text| held(bytes, text, &mut count));
    if wrong == 0 {
        wrong += tested.same_elsewhere(&all, &lines, &mut |bytes, text| held(bytes, text, &mut count));
        wrong += same_in_class_2(&tested, &all);
        wrong += same_in_layout_2(&tested, &all);
        wrong += same_in_every_class(&tested, &all);
        wrong += same_in_every_edition(&tested, &all);
        wrong += tested.same_declared(&all, &mut held_again);
    }
    tested.reader_gone(&all);
    let (tails, short) = tested.tails(1, "9074729 5170857 5170858");
    count.refused[1] += tails;
    count.print();
    let few = count.too_few();
    few.iter().for_each(|what| eprintln!("fleet: too few of {}", what));
    println!("fleet: {} blocks, {} wrong; {} short tails, {} wrong", all.len(), wrong, tails, short);
    exit((wrong > 0 || short > 0 || !few.is_empty()) as i32);
}
