// Blocks for the tests and the benchmark: both layouts, ship S, a coaster, a vehicle carrier, and ships drawn by chance that no rule
// refuses.
// A block is built byte by byte from the document's layout; nothing here knows how the reference reads it.
#![allow(dead_code)]

pub type Block = [u8; 512];

pub struct Random(pub u64);

impl Random {
    pub fn next(&mut self) -> u64 {
        self.0 ^= self.0 << 13;
        self.0 ^= self.0 >> 7;
        self.0 ^= self.0 << 17;
        self.0.wrapping_mul(0x2545_f491_4f6c_dd1d) >> 16
    }
    pub fn from(&mut self, low: u64, high: u64) -> u64 {
        low + self.next() % (high - low + 1)
    }
    pub fn one_in(&mut self, n: u64) -> bool {
        self.next() % n == 0
    }
    pub fn pick<T: Copy>(&mut self, all: &[T]) -> T {
        all[self.next() as usize % all.len()]
    }
    // As many small figures as large ones.
    pub fn any_size(&mut self, low: u64, high: u64) -> u64 {
        let part = (self.next() & 0xffff_ffff) as f64 / 4294967296.0;
        let figure = (low as f64).powf(1.0 - part) * (high as f64).powf(part);
        (figure as u64).max(low).min(high)
    }
}

#[derive(Clone, Copy)]
pub struct Field(pub usize, pub usize);

pub const LAYOUT: Field = Field(0, 2);
pub const TYPE: Field = Field(2, 1);
pub const METHOD: Field = Field(3, 1);
pub const IMO: Field = Field(4, 4);
pub const DEADWEIGHT: Field = Field(8, 4);
pub const GROSS_TONNAGE: Field = Field(12, 4);
pub const CARGO_VOLUME: Field = Field(16, 4);
pub const SPEED: [Field; 2] = [Field(20, 4), Field(24, 4)];
pub const TRIAL_POWER: Field = Field(28, 4);
pub const TRIAL_DEADWEIGHT: Field = Field(32, 4);
pub const AUX_METHOD: Field = Field(36, 1);
pub const ICE: Field = Field(37, 1);
pub const ENGINES: Field = Field(38, 1);
pub const AUX_SOURCE: Field = Field(39, 1);
pub const TABLE_POWER: Field = Field(40, 4);
pub const AUX_SFC: [Field; 2] = [Field(44, 2), Field(46, 2)];
pub const AUX_FUEL: Field = Field(48, 1);
// Layout 2 alone: lightweight, displacement volume, number of cranes, edition (0 EEXI, 1 and 2 EEDI); length, breadth and draught with
// the ends they may have.
pub const LIGHTWEIGHT: Field = Field(132, 4);
pub const DISPLACEMENT: Field = Field(136, 4);
pub const CRANES: Field = Field(140, 1);
pub const EDITION: Field = Field(141, 1);
pub const HULL: [Field; 3] = [Field(176, 4), Field(180, 4), Field(184, 4)];
pub const HULL_ENDS: [(u64, u64); 3] = [(1_000, 50_000), (200, 10_000), (50, 4_000)];

pub fn mcr(engine: usize) -> [Field; 2] {
    [Field(52 + 20 * engine, 4), Field(56 + 20 * engine, 4)]
}

pub fn limit(engine: usize) -> Field {
    Field(60 + 20 * engine, 4)
}

// Where a consumption stands: its two ends, fuel and source. Number 4 is the auxiliaries.
pub fn consumption(engine: usize) -> ([Field; 2], Field, Field) {
    let at = 64 + 20 * engine;
    if engine == 4 { (AUX_SFC, AUX_FUEL, AUX_SOURCE) } else { ([Field(at, 2), Field(at + 2, 2)], Field(at + 4, 1), Field(at + 5, 1)) }
}

// A crane's load and reach.
pub fn crane(number: usize) -> [Field; 2] {
    [Field(144 + 4 * number, 2), Field(146 + 4 * number, 2)]
}

pub fn put(block: &mut Block, field: Field, value: u64) {
    block[field.0..field.0 + field.1].copy_from_slice(&value.to_le_bytes()[..field.1]);
}

pub fn put_both(block: &mut Block, ends: [Field; 2], value: u64) {
    put(block, ends[0], value);
    put(block, ends[1], value);
}

pub fn get(block: &Block, field: Field) -> u64 {
    (0..field.1).map(|i| (block[field.0 + i] as u64) << (8 * i)).sum()
}

// The check in the document's own words.
pub fn seal(block: &mut Block) {
    let (mut a, mut b) = (1u16, 0u16);
    for byte in &block[..508] {
        a = a.wrapping_add(*byte as u16);
        b = b.wrapping_add(a);
    }
    put(block, Field(508, 2), a as u64);
    put(block, Field(510, 2), b as u64);
}

pub fn sealed(mut block: Block) -> Block {
    seal(&mut block);
    block
}

// The number with its check digit after six digits; fewer digits count as leading zeros.
pub fn imo_of(six: u64) -> u64 {
    let (mut sum, mut rest) = (0, six);
    for weight in 2..8 {
        sum += weight * (rest % 10);
        rest /= 10;
    }
    10 * six + sum % 10
}

// Ship S of the document.
pub fn ship_s() -> Block {
    let mut block = [0; 512];
    let figures = [(LAYOUT, 1), (TYPE, 1), (METHOD, 1), (IMO, 9_074_729), (DEADWEIGHT, 50_000), (CARGO_VOLUME, 60_000)];
    for (field, value) in figures.iter().chain(&[(AUX_METHOD, 1), (ENGINES, 1)]) {
        put(&mut block, *field, *value);
    }
    put_both(&mut block, SPEED, 1_400);
    put_both(&mut block, mcr(0), 8_000);
    put_consumption(&mut block, 0, [1_800, 1_800], 3, 1);
    put_consumption(&mut block, 4, [2_000, 2_000], 1, 1);
    sealed(block)
}

// A changed ship S.
pub fn like_s(change: &dyn Fn(&mut Block)) -> Block {
    let mut block = ship_s();
    change(&mut block);
    sealed(block)
}

pub fn s_with(figures: &[(Field, u64)]) -> Block {
    like_s(&|block| figures.iter().for_each(|(field, value)| put(block, *field, *value)))
}

// S with that type and deadweight, and as a bulk carrier no light cargo.
pub fn s_sized(kind: u64, deadweight: u64) -> Block {
    s_with(&[(TYPE, kind), (DEADWEIGHT, deadweight), (CARGO_VOLUME, if kind == 1 { deadweight + deadweight / 5 } else { 0 })])
}

// S with a second engine like the first, of which a limit of 7,100 kW makes 5,893 of the 6,000.
pub fn s_with_two_engines() -> Block {
    like_s(&|block| {
        put(block, ENGINES, 2);
        put_both(block, mcr(1), 8_000);
        put(block, limit(1), 7_100);
        put_consumption(block, 1, [1_800, 1_800], 3, 1);
    })
}

// S as a tanker with a trial: V_S 10.00, sum P_ME 6,750, P_S 2,000, which makes 15 knots.
pub fn fifteen_knots() -> Block {
    let mut block = s_with(&[(TYPE, 3), (METHOD, 2), (CARGO_VOLUME, 0), (TRIAL_POWER, 2_000)]);
    put_both(&mut block, SPEED, 1_000);
    put_both(&mut block, mcr(0), 9_000);
    sealed(block)
}

// S in layout 2, with that lightweight.
pub fn s_in_layout_2(lightweight: u64) -> Block {
    s_with(&[(LAYOUT, 2), (LIGHTWEIGHT, lightweight)])
}

// S with 175.0 to 180.0 g/kWh and 13.50 to 14.00 knots.
pub fn s_with_ranges() -> Block {
    s_with(&[(consumption(0).0[0], 1_750), (SPEED[0], 1_350)])
}

// The ship on a trial at her recorded speed, at so many kilowatts and, at design draught, so many tonnes.
pub fn trial_at(mut block: Block, power: u64, tonnes: u64) -> Block {
    for (field, value) in &[(METHOD, if tonnes > 0 { 3 } else { 2 }), (TRIAL_POWER, power), (TRIAL_DEADWEIGHT, tonnes)] {
        put(&mut block, *field, *value);
    }
    sealed(block)
}

// A coaster, general cargo in layout 2, that can be followed by hand: 5,500 t, one engine of 4,000 kW with the consumptions of S,
// 105.00 x 16.20 x 6.20 m, and a volume of 8,000 m³, whose cube root is 20. She declares so many hundredths of a knot.
pub fn coaster(speed: u64) -> Block {
    let mut block = ship_s();
    let figures = [(LAYOUT, 2), (TYPE, 8), (DEADWEIGHT, 5_500), (CARGO_VOLUME, 0), (DISPLACEMENT, 8_000)];
    for (field, value) in figures.iter().chain(&[(HULL[0], 10_500), (HULL[1], 1_620), (HULL[2], 620)]) {
        put(&mut block, *field, *value);
    }
    put_both(&mut block, SPEED, speed);
    put_both(&mut block, mcr(0), 4_000);
    sealed(block)
}

// The ship in layout 2 and that edition.
pub fn in_edition(mut block: Block, edition: u64) -> Block {
    put(&mut block, LAYOUT, 2);
    put(&mut block, EDITION, edition);
    sealed(block)
}

// A vehicle carrier in layout 2 that can be followed by hand, in that edition: 20,000 t to a gross tonnage of 60,000, a third and so
// below 0.35, one engine of 12,000 kW with the consumptions of S, and 18.00 knots declared.
pub fn vehicle_carrier(edition: u64) -> Block {
    let mut block = ship_s();
    for (field, value) in &[(TYPE, 7), (DEADWEIGHT, 20_000), (GROSS_TONNAGE, 60_000), (CARGO_VOLUME, 0)] {
        put(&mut block, *field, *value);
    }
    put_both(&mut block, SPEED, 1_800);
    put_both(&mut block, mcr(0), 12_000);
    in_edition(block, edition)
}

// So many cranes, each a load and a reach in tenths, and no figure in the other entries.
pub fn put_cranes(block: &mut Block, cranes: &[[u64; 2]]) {
    put(block, CRANES, cranes.len() as u64);
    for number in 0..8 {
        let figures = cranes.get(number).unwrap_or(&[0, 0]);
        put(block, crane(number)[0], figures[0]);
        put(block, crane(number)[1], figures[1]);
    }
}

pub fn put_consumption(block: &mut Block, engine: usize, sfc: [u64; 2], fuel: u64, source: u64) {
    let (ends, fuel_field, source_field) = consumption(engine);
    put(block, ends[0], sfc[0]);
    put(block, ends[1], sfc[1]);
    put(block, fuel_field, fuel);
    put(block, source_field, source);
}

// Two ends in order, or the same figure twice.
fn draw_ends(random: &mut Random, low: u64, high: u64, ranged: bool) -> [u64; 2] {
    let figure = random.any_size(low, high);
    match ranged {
        true if random.one_in(3) => [figure, random.from(figure, high)],
        true => [figure, (figure + random.from(0, 1 + figure / 20)).min(high)],
        false => [figure, figure],
    }
}

fn draw_consumption(block: &mut Block, random: &mut Random, engine: usize, ranged: bool) {
    let source = if random.one_in(5) { 3 } else { random.from(1, 2) };
    let sfc = draw_ends(random, 500, 4_000, ranged);
    if source == 3 {
        put_consumption(block, engine, [0, 0], 0, 3);
    } else {
        put_consumption(block, engine, sfc, random.from(1, 8), source);
    }
}

fn draw_engines(block: &mut Block, random: &mut Random, ranged: bool) {
    let count = if random.one_in(2) { 1 } else { random.from(1, 4) };
    put(block, ENGINES, count);
    let ranged_power = ranged && get(block, METHOD) == 1;
    for engine in 0..count as usize {
        let power = draw_ends(random, 100, 120_000, ranged_power);
        put(block, mcr(engine)[0], power[0]);
        put(block, mcr(engine)[1], power[1]);
        if random.one_in(3) {
            put(block, limit(engine), random.from(100.max(power[0] / 2), power[0]));
        }
        draw_consumption(block, random, engine, ranged);
    }
    draw_consumption(block, random, 4, ranged);
}

// Sizes that make light cargo and heavy cargo equally likely.
fn draw_size(block: &mut Block, random: &mut Random) {
    let deadweight = random.any_size(100, 600_000);
    put(block, DEADWEIGHT, deadweight);
    let percent = random.from(10, 100);
    match get(block, TYPE) {
        1 => put(block, CARGO_VOLUME, (100 * deadweight / percent).max(100).min(1_000_000)),
        7 => put(block, GROSS_TONNAGE, (100 * deadweight / percent.min(60)).max(100).min(400_000)),
        _ => {}
    }
}

// Sum of P_ME in hundredths of a kW and Capacity in tenths of a tonne, for a trial that is comparable with them.
pub fn main_power(block: &Block) -> u64 {
    let of = |engine: usize| match (75 * get(block, mcr(engine)[0]), 83 * get(block, limit(engine))) {
        (unlimited, 0) => unlimited,
        (unlimited, limited) => unlimited.min(limited),
    };
    (0..get(block, ENGINES).min(4) as usize).map(of).sum()
}

pub fn capacity(block: &Block) -> u64 {
    get(block, DEADWEIGHT) * if get(block, TYPE) == 4 { 7 } else { 10 }
}

fn draw_speed(block: &mut Block, random: &mut Random, ranged: bool) {
    let method = get(block, METHOD);
    if method == 4 {
        return;
    }
    // f_j goes by the speed: a general cargo ship has a single one.
    let ends = draw_ends(random, 500, 6_000, ranged && method == 1 && get(block, TYPE) != 8);
    put(block, SPEED[0], ends[0]);
    put(block, SPEED[1], ends[1]);
    draw_trial(block, random);
}

// A trial at a quarter to nearly five times the ship's power, and for method 3 also of her Capacity.
pub fn draw_trial(block: &mut Block, random: &mut Random) {
    let power = (main_power(block) * random.from(25, 490) / 10_000).min(600_000);
    let deadweight = capacity(block) * random.from(25, 490) / 1_000;
    let method = get(block, METHOD);
    put(block, TRIAL_POWER, if method == 2 || method == 3 { power } else { 0 });
    put(block, TRIAL_DEADWEIGHT, if method == 3 { deadweight } else { 0 });
}

// V_ref of a general cargo ship in knots, for hulls about the caps of Fn and f_j.
pub fn speed_of(block: &Block) -> f64 {
    let (power, size) = (main_power(block) as f64 / 100.0, get(block, DEADWEIGHT) as f64);
    let average = 2.4538 * size.powf(0.18832);
    let (knots, other) = match get(block, METHOD) {
        1 => (get(block, SPEED[0]) as f64 / 100.0, power),
        2 => (get(block, SPEED[0]) as f64 / 100.0, get(block, TRIAL_POWER) as f64),
        _ => (average - 1.0f64.min(0.05 * average), 0.75 * 0.8816 * size.powf(0.92050)),
    };
    knots * (power / other).cbrt()
}

// The volume in m³ with which Fn is so much at that speed.
pub fn volume_at(knots: f64, froude: f64) -> f64 {
    ((0.5144 * knots / froude).powi(2) / 9.81).powi(3)
}

// A hull of that volume, or of less where none is so large; most are as full and as slender as ships are.
pub fn put_hull(block: &mut Block, random: &mut Random, volume: u64) {
    let fullness = if random.one_in(8) { random.from(1, 300) } else { random.from(300, 1_000) } as f64 / 1_000.0;
    let (slender, flat) = (random.from(400, 900) as f64 / 100.0, random.from(150, 400) as f64 / 100.0);
    let draught = (volume as f64 / fullness / (slender * flat * flat)).cbrt();
    for (place, size) in [slender * flat * draught, flat * draught, draught].iter().enumerate() {
        let (low, high) = HULL_ENDS[place];
        put(block, HULL[place], ((100.0 * size).ceil() as u64).max(low).min(high));
    }
    put(block, DISPLACEMENT, volume.min(box_volume(block) / 1_000_000));
}

// Length times breadth times draught, in millionths of a m³.
pub fn box_volume(block: &Block) -> u64 {
    HULL.iter().map(|field| get(block, *field)).product()
}

// Most volumes make Fn 0.40 to 0.70, so that either side of both caps is met.
fn draw_hull(block: &mut Block, random: &mut Random) {
    let volume = match random.one_in(4) {
        true => random.any_size(100, 1_000_000),
        false => volume_at(speed_of(block), random.from(400, 700) as f64 / 1_000.0) as u64,
    };
    put_hull(block, random, volume.max(100).min(1_000_000));
}

pub fn draw_cranes(block: &mut Block, random: &mut Random, count: u64) {
    let cranes: Vec<[u64; 2]> = (0..count).map(|_| [random.any_size(1, 10_000), random.any_size(1, 10_000)]).collect();
    put_cranes(block, &cranes);
}

// A ship of that type and speed method that no rule refuses; in layout 1 where the type is in it.
pub fn draw(random: &mut Random, kind: u64, method: u64, ranged: bool) -> Block {
    let mut block = [0; 512];
    for (field, value) in &[(LAYOUT, 1), (TYPE, kind), (METHOD, method), (IMO, imo_of(random.from(100_000, 999_999)))] {
        put(&mut block, *field, *value);
    }
    draw_size(&mut block, random);
    draw_engines(&mut block, random, ranged);
    draw_speed(&mut block, random, ranged);
    put(&mut block, ICE, random.pick(&[1, 0, 0, 2]));
    put(&mut block, AUX_METHOD, 1);
    if random.one_in(3) {
        put(&mut block, AUX_METHOD, 2);
        put(&mut block, TABLE_POWER, random.any_size(1, 50_000));
    }
    if kind == 8 {
        put(&mut block, LAYOUT, 2);
        draw_hull(&mut block, random);
        let count = if random.one_in(3) { 0 } else { random.from(1, 8) };
        draw_cranes(&mut block, random, count);
    }
    sealed(block)
}

// The same in layout 2, where most bulk carriers and tankers are under the common structural rules.
pub fn draw_layout_2(random: &mut Random, kind: u64, method: u64, ranged: bool) -> Block {
    let mut block = draw(random, kind, method, ranged);
    put(&mut block, LAYOUT, 2);
    if (kind == 1 || kind == 3) && !random.one_in(8) {
        put(&mut block, LIGHTWEIGHT, random.any_size(100, 200_000));
    }
    sealed(block)
}

// A declared ship as a new one in that edition: no limiter, and a report or a maker behind every consumption.
pub fn as_new(ship: &Block, random: &mut Random, edition: u64) -> Block {
    let mut block = *ship;
    let engines = get(&block, ENGINES).min(4) as usize;
    (0..engines).for_each(|engine| put(&mut block, limit(engine), 0));
    for engine in (0..engines).chain(4..5).filter(|engine| get(ship, consumption(*engine).2) == 3) {
        let sfc = random.from(500, 4_000);
        put_consumption(&mut block, engine, [sfc, sfc], random.from(1, 8), random.from(1, 2));
    }
    in_edition(block, edition)
}

pub fn draw_new(random: &mut Random, kind: u64, edition: u64, ranged: bool) -> Block {
    let ship = draw_layout_2(random, kind, 1, ranged);
    as_new(&ship, random, edition)
}

// A ship of any kind in that layout; in layout 2 every second one with a declared speed is a new one.
pub fn draw_any(random: &mut Random, layout: u64) -> Block {
    let (kind, method) = random.pick(&if layout == 1 { older_kinds() } else { kinds() });
    let ranged = random.0 & 1 == 0;
    if layout == 1 {
        return draw(random, kind, method, ranged);
    }
    let edition = if method == 1 { random.pick(&[0, 0, 1, 2]) } else { 0 };
    if edition == 0 { draw_layout_2(random, kind, method, ranged) } else { draw_new(random, kind, edition, ranged) }
}

// Every type with every speed method it may have.
pub fn kinds() -> Vec<(u64, u64)> {
    let all = (1..=8).flat_map(|kind| (1..=4).map(move |method| (kind, method)));
    all.filter(|(kind, method)| *method != 3 || [1, 3, 4].contains(kind)).collect()
}

// Those that layout 1 has.
pub fn older_kinds() -> Vec<(u64, u64)> {
    kinds().into_iter().filter(|(kind, _)| *kind != 8).collect()
}
