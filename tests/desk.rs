// The desk once more, written from the customer's documents alone: what each block of 512 bytes must be answered, and its speed by itself.
// Where only fractions enter, the pair is worked out in whole numbers; elsewhere index and speed are doubles.
// As a program it prints the lines of `fleet` for standard input, with the argument `speeds` those of `speeds`; the benchmark takes it as
// the rival of `fleet`.
#![allow(dead_code)]
use std::convert::TryFrom;
use std::fs::File;
use std::io::{Read, Write};
use std::os::unix::io::AsFd;
use std::process::exit;

pub const BLOCK: usize = 512;
pub const MOST_BLOCKS: usize = 65_536;
// Far above the error of the doubles here and far below any gap that is tested. The worst is a general cargo ship by method 4: with
// every operation, constant and exponent off by a rounding (2^-53) and a root by eight, her speed is off by at most 26 of them, Fn by
// 35, Fn^2.3 by 90 and the index by 135, which is 1.5e-14. Elsewhere it is less.
pub const DOUBLE_ERROR: f64 = 1e-12;

#[derive(Clone, Copy, Debug, PartialEq)]
pub enum Answer {
    Refused(u8),
    // Types 1 to 7 with f_c = 1, by a declared speed or a trial at rated power: the exact fraction's floor and ceiling.
    Exact { imo: u32, lower: u64, upper: u64 },
    // The index of the most and of the least favourable ship, in millionths.
    Near { imo: u32, favourable: f64, least: f64, ranged: bool },
}

// V_ref in millionths of a knot.
#[derive(Clone, Copy, Debug, PartialEq)]
pub enum Speed {
    // As recorded, declared or of a trial at rated power, whatever f_c and f_j are.
    Exact(u64),
    Near(f64),
}

#[derive(Clone, Copy, Debug, PartialEq)]
pub enum SpeedAnswer {
    Refused(u8),
    // The speed of the most and of the least favourable ship.
    Speeds { imo: u32, most: Speed, least: Speed },
}

#[derive(Clone, Copy, Default, Debug)]
pub struct Engine {
    pub mcr: [u32; 2],
    pub limit: u32,
    pub sfc: [u16; 2],
    pub fuel: u8,
    pub source: u8,
}

#[derive(Clone, Copy, Default, Debug)]
pub struct Ship {
    pub layout: u16,
    pub kind: u8,
    pub method: u8,
    pub imo: u32,
    pub deadweight: u32,
    pub gross_tonnage: u32,
    pub cargo_volume: u32,
    pub speed: [u32; 2],
    pub trial_power: u32,
    pub trial_deadweight: u32,
    pub aux_method: u8,
    pub ice: u8,
    pub engines: u8,
    pub table_power: u32,
    pub auxiliary: Engine,
    pub engine: [Engine; 4],
    pub lightweight: u32,
    // Displacement in m³.
    pub displacement: u32,
    pub cranes: u8,
    // Load and reach of each, in tenths of a tonne and of a metre.
    pub crane: [[u16; 2]; 8],
    // Length, breadth and draught, in hundredths of a metre.
    pub hull: [u32; 3],
    // 0 EEXI, 1 EEDI under MEPC.308(73) alone, 2 EEDI under it as amended by MEPC.322(74).
    pub edition: u8,
}

fn word(block: &[u8], at: usize) -> u32 {
    u32::from_le_bytes([block[at], block[at + 1], block[at + 2], block[at + 3]])
}

fn half(block: &[u8], at: usize) -> u16 {
    u16::from_le_bytes([block[at], block[at + 1]])
}

fn engine_at(block: &[u8], at: usize) -> Engine {
    Engine {
        mcr: [word(block, at), word(block, at + 4)],
        limit: word(block, at + 8),
        sfc: [half(block, at + 12), half(block, at + 14)],
        fuel: block[at + 16],
        source: block[at + 17],
    }
}

pub fn fields(block: &[u8]) -> Ship {
    let crane_at = |at: usize| [half(block, at), half(block, at + 2)];
    Ship {
        layout: half(block, 0),
        kind: block[2],
        method: block[3],
        imo: word(block, 4),
        deadweight: word(block, 8),
        gross_tonnage: word(block, 12),
        cargo_volume: word(block, 16),
        speed: [word(block, 20), word(block, 24)],
        trial_power: word(block, 28),
        trial_deadweight: word(block, 32),
        aux_method: block[36],
        ice: block[37],
        engines: block[38],
        table_power: word(block, 40),
        auxiliary: Engine { sfc: [half(block, 44), half(block, 46)], fuel: block[48], source: block[39], ..Engine::default() },
        engine: [engine_at(block, 52), engine_at(block, 72), engine_at(block, 92), engine_at(block, 112)],
        lightweight: word(block, 132),
        displacement: word(block, 136),
        cranes: block[140],
        crane: [
            crane_at(144), crane_at(148), crane_at(152), crane_at(156), crane_at(160), crane_at(164), crane_at(168), crane_at(172),
        ],
        hull: [word(block, 176), word(block, 180), word(block, 184)],
        edition: block[141],
    }
}

// Both sums at once: byte i is in A once, and in B as often as sums are taken from it on, 508 - i times.
pub fn check(block: &[u8]) -> (u16, u16) {
    let (mut a, mut b) = (1u32, 508u32);
    for (i, byte) in block[..508].iter().enumerate() {
        a = a.wrapping_add(*byte as u32);
        b = b.wrapping_add((508 - i as u32) * *byte as u32);
    }
    (a as u16, b as u16)
}

// The last digit of an IMO number is that of its first six digits weighted 7 to 2 and summed.
pub fn imo_is_right(imo: u32) -> bool {
    let digit = |place: u32| imo / 10u32.pow(place) % 10;
    let sum: u32 = (1..=6).map(|place| digit(place) * (place + 1)).sum();
    (1_000_000..=9_999_999).contains(&imo) && sum % 10 == imo % 10
}

impl Engine {
    fn power_is_right(&self) -> bool {
        self.mcr.iter().all(|end| (100..=120_000).contains(end)) && (self.limit == 0 || (100..=self.mcr[0]).contains(&self.limit))
    }
    fn consumption_is_right(&self) -> bool {
        match self.source {
            1 | 2 => self.sfc.iter().all(|end| (500..=4_000).contains(end)) && (1..=8).contains(&self.fuel),
            3 => self.sfc == [0, 0] && self.fuel == 0,
            _ => false,
        }
    }
    // P_ME in hundredths of a kW.
    pub fn main_power(&self, end: usize) -> u64 {
        let three_quarters = 75 * self.mcr[end] as u64;
        if self.limit == 0 { three_quarters } else { three_quarters.min(83 * self.limit as u64) }
    }
    // Conversion factor in thousandths times consumption in tenths of g/kWh; without a source, `else_sfc` of heavy fuel oil.
    fn emission(&self, end: usize, else_sfc: u64) -> u64 {
        const FACTOR: [u64; 9] = [0, 3_206, 3_151, 3_114, 3_000, 3_030, 2_750, 1_375, 1_913];
        if self.source == 3 { 3_114 * else_sfc } else { FACTOR[self.fuel as usize] * self.sfc[end] as u64 }
    }
}

impl Ship {
    fn used(&self) -> &[Engine] {
        &self.engine[..self.engines as usize]
    }
    // In tenths of a tonne: the deadweight, or 70 % of it.
    pub fn capacity(&self) -> u64 {
        self.deadweight as u64 * if self.kind == 4 { 7 } else { 10 }
    }
    // Capacity with f_i, in fiftieths of a tonne: 8 % of the lightweight joins the deadweight. Only types 1 and 3 have one.
    fn carried(&self) -> u64 {
        5 * self.capacity() + 4 * self.lightweight as u64
    }
    // f_l: what each used crane adds to the Capacity, in millionths of a tonne. Only type 8 has cranes.
    fn crane_factor(&self) -> f64 {
        let of = |crane: &[u16; 2]| 519 * crane[0] as u64 * crane[1] as u64 + 32_110_000;
        let added: u64 = self.crane[..self.cranes as usize].iter().map(of).sum();
        1.0 + added as f64 / (1e6 * self.deadweight as f64)
    }
    // Length times breadth times draught, in millionths of a m³.
    fn box_volume(&self) -> u64 {
        self.hull.iter().map(|size| *size as u64).product()
    }
    // Fn before its cap.
    pub fn froude(&self, knots: f64) -> f64 {
        0.5144 * knots / (9.81 * (self.displacement as f64).cbrt()).sqrt()
    }
    // f_j, before its cap, of a general cargo ship with that Fn.
    pub fn hull_factor(&self, froude: f64) -> f64 {
        let fullness = 1e6 * self.displacement as f64 / self.box_volume() as f64;
        0.174 / (froude.powf(2.3) * fullness.powf(0.3))
    }
    pub fn main_power(&self, end: usize) -> u64 {
        self.used().iter().map(|engine| engine.main_power(end)).sum()
    }
    // P_AE in thousandths of a kW; the rule goes by the unlimited MCR.
    pub fn aux_power(&self, end: usize) -> u64 {
        let mcr: u64 = self.used().iter().map(|engine| engine.mcr[end] as u64).sum();
        match self.aux_method {
            2 => 1_000 * self.table_power as u64,
            _ if mcr < 10_000 => 50 * mcr,
            _ => 25 * mcr + 250_000,
        }
    }
    pub fn has_ranges(&self) -> bool {
        let differ = |engine: &Engine| engine.mcr[0] != engine.mcr[1] || engine.sfc[0] != engine.sfc[1];
        self.speed[0] != self.speed[1] || differ(&self.auxiliary) || self.used().iter().any(differ)
    }
    pub fn has_light_cargo(&self) -> bool {
        match self.kind {
            1 => 100 * (self.deadweight as u64) < 55 * self.cargo_volume as u64,
            7 => 100 * (self.deadweight as u64) < 35 * self.gross_tonnage as u64,
            _ => false,
        }
    }
    // Whether f_c is other than 1. That of vehicle carriers is the EEXI's alone, that of bulk carriers is in every edition.
    pub fn has_cargo_factor(&self) -> bool {
        self.has_light_cargo() && (self.kind != 7 || self.edition == 0)
    }
    // k of a trial at design draught, in hundredths: 1 for the largest bulk carriers and tankers alone.
    pub fn scale(&self) -> u64 {
        match (self.kind, self.deadweight) {
            (4, 0..=120_000) => 95,
            (4, _) => 93,
            (1, 0..=200_000) | (3, 0..=100_000) => 97,
            _ => 100,
        }
    }
    // A trial at just the sum of P_ME, and at design draught besides at Capacity and with k 1: V_ref is the trial's speed times powers of 1.
    pub fn is_at_rated_power(&self) -> bool {
        let rated = 100 * self.trial_power as u64 == self.main_power(0);
        match self.method {
            2 => rated,
            3 => rated && self.scale() == 100 && 10 * self.trial_deadweight as u64 == self.capacity(),
            _ => false,
        }
    }
    // V_ref is a recorded speed.
    pub fn has_recorded_speed(&self) -> bool {
        self.method == 1 || self.is_at_rated_power()
    }
    // Only fractions enter her index: V_ref is a recorded speed and f_c is 1. A general cargo ship has f_j besides.
    pub fn has_fraction(&self) -> bool {
        self.kind != 8 && self.has_recorded_speed() && !self.has_cargo_factor()
    }
    fn light_cargo_factor(&self) -> f64 {
        match self.kind {
            _ if !self.has_cargo_factor() => 1.0,
            1 => (self.deadweight as f64 / self.cargo_volume as f64).powf(-0.15),
            _ => (self.deadweight as f64 / self.gross_tonnage as f64 / 0.35).powf(-0.8),
        }
    }
}

fn tonnage_is_right(ship: &Ship) -> bool {
    if ship.kind == 7 { (100..=400_000).contains(&ship.gross_tonnage) } else { ship.gross_tonnage == 0 }
}

fn volume_is_right(ship: &Ship) -> bool {
    if ship.kind == 1 { (100..=1_000_000).contains(&ship.cargo_volume) } else { ship.cargo_volume == 0 }
}

fn speed_is_right(ship: &Ship) -> bool {
    match ship.method {
        3 if ![1, 3, 4].contains(&ship.kind) => false,
        1..=3 => ship.speed.iter().all(|end| (500..=6_000).contains(end)),
        4 => ship.speed == [0, 0],
        _ => false,
    }
}

fn ranges_are_right(ship: &Ship) -> bool {
    let ordered = |engine: &Engine| engine.mcr[0] <= engine.mcr[1] && engine.sfc[0] <= engine.sfc[1];
    let same_power = ship.used().iter().all(|engine| engine.mcr[0] == engine.mcr[1]);
    ship.speed[0] <= ship.speed[1]
        && ordered(&ship.auxiliary)
        && ship.used().iter().all(ordered)
        && (ship.method == 1 || (ship.speed[0] == ship.speed[1] && same_power))
        && (ship.kind != 8 || ship.speed[0] == ship.speed[1])
}

// Neither is above five times the other.
fn comparable(a: u64, b: u64) -> bool {
    a <= 5 * b && b <= 5 * a
}

fn trial_is_right(ship: &Ship) -> bool {
    let (power, deadweight) = (ship.trial_power as u64, ship.trial_deadweight as u64);
    let right_power = (1..=600_000).contains(&power) && comparable(100 * power, ship.main_power(0));
    match ship.method {
        2 => right_power && deadweight == 0,
        3 => right_power && deadweight != 0 && comparable(10 * deadweight, ship.capacity()),
        _ => power == 0 && deadweight == 0,
    }
}

// In layout 1 every newer field is empty too.
fn rest_is_zero(block: &[u8], ship: &Ship) -> bool {
    let engines = ship.engines as usize;
    let after = if ship.layout == 1 { 132 } else { 188 };
    let zero = |bytes: &[u8]| bytes.iter().fold(0, |all, byte| all | byte) == 0;
    zero(&block[49..52])
        && zero(&block[52 + 20 * engines..132])
        && zero(&block[142..144])
        && zero(&block[after..508])
        && (0..engines).all(|i| zero(&block[70 + 20 * i..72 + 20 * i]))
}

fn lightweight_is_right(ship: &Ship) -> bool {
    ship.lightweight == 0 || ([1, 3].contains(&ship.kind) && (100..=200_000).contains(&ship.lightweight))
}

fn cranes_are_right(ship: &Ship) -> bool {
    let count = ship.cranes as usize;
    if count > 8 || (count > 0 && ship.kind != 8) {
        return false;
    }
    let (used, unused) = ship.crane.split_at(count);
    used.iter().flatten().all(|figure| (1..=10_000).contains(figure)) && unused.iter().flatten().all(|figure| *figure == 0)
}

fn hull_is_right(ship: &Ship) -> bool {
    if ship.kind != 8 {
        return ship.hull == [0, 0, 0] && ship.displacement == 0;
    }
    (1_000..=50_000).contains(&ship.hull[0])
        && (200..=10_000).contains(&ship.hull[1])
        && (50..=4_000).contains(&ship.hull[2])
        && (100..=1_000_000).contains(&ship.displacement)
        && 1_000_000 * ship.displacement as u64 <= ship.box_volume()
}

// An EEDI has a declared speed and no limiter, and every consumption has a report or a maker behind it.
fn edition_is_right(ship: &Ship) -> bool {
    let as_built = |engine: &Engine| engine.limit == 0 && engine.source != 3;
    match ship.edition {
        0 => true,
        1 | 2 => ship.method == 1 && as_built(&ship.auxiliary) && ship.used().iter().all(as_built),
        _ => false,
    }
}

// The first rule of the table that the block breaks, or the ship.
pub fn read(block: &[u8]) -> Result<Ship, u8> {
    let keep = |right: bool, number: u8| if right { Ok(()) } else { Err(number) };
    keep(block.len() == BLOCK, 1)?;
    keep(check(block) == (half(block, 508), half(block, 510)), 2)?;
    let ship = fields(block);
    keep([1, 2].contains(&ship.layout), 3)?;
    keep(imo_is_right(ship.imo), 4)?;
    keep((1..=7).contains(&ship.kind) || (ship.kind, ship.layout) == (8, 2), 5)?;
    keep((100..=600_000).contains(&ship.deadweight), 6)?;
    keep(tonnage_is_right(&ship), 7)?;
    keep(volume_is_right(&ship), 8)?;
    keep((1..=4).contains(&ship.engines) && ship.used().iter().all(Engine::power_is_right), 9)?;
    keep(ship.auxiliary.consumption_is_right() && ship.used().iter().all(Engine::consumption_is_right), 10)?;
    keep(matches!((ship.aux_method, ship.table_power), (1, 0) | (2, 1..=50_000)), 11)?;
    keep(ship.ice <= 2, 12)?;
    keep(speed_is_right(&ship), 13)?;
    keep(ranges_are_right(&ship), 14)?;
    keep(trial_is_right(&ship), 15)?;
    keep(rest_is_zero(block, &ship), 16)?;
    keep(lightweight_is_right(&ship) && cranes_are_right(&ship) && hull_is_right(&ship), 18)?;
    keep(edition_is_right(&ship), 19)?;
    Ok(ship)
}

// Grams of CO2 an hour, in ten-millionths: of the main engines, and of the auxiliaries.
fn emissions(ship: &Ship, end: usize) -> (u64, u64) {
    let main = ship.used().iter().map(|engine| 10 * engine.main_power(end) * engine.emission(end, 1_900)).sum();
    (main, ship.aux_power(end) * ship.auxiliary.emission(end, 2_150))
}

// f_m in hundredths: IA Super and IA, class 1, have 1.05; IB and IC, class 2, have 1 as a ship without a class has.
// MEPC.308(73) alone, edition 1, has no f_m.
fn ice_factor(ship: &Ship) -> u64 {
    if ship.ice == 1 && ship.edition != 1 { 105 } else { 100 }
}

// The index in millionths as a fraction; `end` 0 is the most favourable ship, which has the high speed.
fn fraction(ship: &Ship, end: usize) -> (u128, u64) {
    let (main, auxiliary) = emissions(ship, end);
    ((main + auxiliary) as u128 * 50_000, ship.carried() * ship.speed[1 - end] as u64 * ice_factor(ship))
}

// Quotient and whether anything is left; the short division where the number is short.
fn divide((over, under): (u128, u64)) -> (u64, bool) {
    match u64::try_from(over) {
        Ok(short) => (short / under, short % under != 0),
        Err(_) => ((over / under as u128) as u64, over % under as u128 != 0),
    }
}

// V_avg less its margin, and MCR_avg; only a container ship's deadweight is capped, each table at its own cap.
pub fn statistics(ship: &Ship) -> (f64, f64) {
    let (a, c, d, f) = match ship.kind {
        1 => (10.6585, 0.02706, 23.7510, 0.54087),
        2 => (7.4462, 0.07604, 21.4704, 0.59522),
        3 => (8.1358, 0.05383, 22.8415, 0.55826),
        4 => (3.2395, 0.18294, 0.5042, 1.03046),
        5 => (1.0600, 0.31518, 0.0272, 1.38634),
        6 => (8.1391, 0.05378, 22.8536, 0.55820),
        7 => (16.6773, 0.01802, 262.7693, 0.39973),
        _ => (2.4538, 0.18832, 0.8816, 0.92050),
    };
    let (speed_cap, power_cap) = if ship.kind == 4 { (80_000, 95_000) } else { (u32::MAX, u32::MAX) };
    let average: f64 = a * (ship.deadweight.min(speed_cap) as f64).powf(c);
    (average - (0.05 * average).min(1.0), d * (ship.deadweight.min(power_cap) as f64).powf(f))
}

fn draught_factor(ship: &Ship) -> f64 {
    let k = ship.scale() as f64 / 100.0;
    k.cbrt() * (10.0 * ship.trial_deadweight as f64 / ship.capacity() as f64).powf(2.0 / 9.0)
}

// V_ref in knots.
pub fn speed(ship: &Ship, end: usize) -> f64 {
    let recorded = ship.speed[1 - end] as f64 / 100.0;
    let power = ship.main_power(end) as f64 / 100.0;
    let by_power = |other: f64| (power / other).cbrt();
    match ship.method {
        1 => recorded,
        2 => recorded * by_power(ship.trial_power as f64),
        3 => recorded * by_power(ship.trial_power as f64) * draught_factor(ship),
        _ => {
            let (average, mcr) = statistics(ship);
            average * by_power(0.75 * mcr)
        }
    }
}

// The index in millionths, as a double. f_j is the main engines' alone, and goes by V_ref whatever its method.
fn near_index(ship: &Ship, end: usize) -> f64 {
    let knots = speed(ship, end);
    let (main, auxiliary) = emissions(ship, end);
    let over = match ship.kind {
        8 => main as f64 * ship.hull_factor(ship.froude(knots).min(0.6)).min(1.0) + auxiliary as f64,
        _ => (main + auxiliary) as f64,
    };
    let factors = ship.light_cargo_factor() * ship.crane_factor() * ice_factor(ship) as f64;
    over * 500.0 / (factors * ship.carried() as f64 * knots)
}

pub fn answer(block: &[u8]) -> Answer {
    let ship = match read(block) {
        Ok(ship) => ship,
        Err(number) => return Answer::Refused(number),
    };
    let imo = ship.imo;
    if ship.has_fraction() {
        let (lower, _) = divide(fraction(&ship, 0));
        let (whole, left) = divide(fraction(&ship, 1));
        return Answer::Exact { imo, lower, upper: whole + left as u64 };
    }
    let (favourable, ranged) = (near_index(&ship, 0), ship.has_ranges());
    let least = if ranged { near_index(&ship, 1) } else { favourable };
    Answer::Near { imo, favourable, least, ranged }
}

// V_ref by itself; `end` 0 is the most favourable ship, which has the high speed.
fn reference_speed(ship: &Ship, end: usize) -> Speed {
    match ship.has_recorded_speed() {
        true => Speed::Exact(10_000 * ship.speed[1 - end] as u64),
        false => Speed::Near(1e6 * speed(ship, end)),
    }
}

pub fn speeds(block: &[u8]) -> SpeedAnswer {
    match read(block) {
        Ok(ship) => SpeedAnswer::Speeds { imo: ship.imo, most: reference_speed(&ship, 0), least: reference_speed(&ship, 1) },
        Err(number) => SpeedAnswer::Refused(number),
    }
}

// The whole numbers on either side of what a double stands for.
fn below(double: f64) -> u64 {
    (double * (1.0 - DOUBLE_ERROR)).floor() as u64
}

fn above(double: f64) -> u64 {
    (double * (1.0 + DOUBLE_ERROR)).ceil() as u64
}

impl Speed {
    pub fn bounds(self) -> [u64; 2] {
        match self {
            Speed::Exact(millionths) => [millionths, millionths],
            Speed::Near(double) => [below(double), above(double)],
        }
    }
}

fn push_number(line: &mut Vec<u8>, mut number: u64) {
    let mut digits = [0u8; 20];
    let mut at = 20;
    loop {
        at -= 1;
        digits[at] = b'0' + (number % 10) as u8;
        number /= 10;
        if number == 0 {
            break;
        }
    }
    line.extend_from_slice(&digits[at..]);
}

fn push_figures(text: &mut Vec<u8>, figures: &[u64]) {
    for figure in figures {
        text.push(b' ');
        push_number(text, *figure);
    }
    text.push(b'\n');
}

fn push_refusal(text: &mut Vec<u8>, rule: u8) {
    text.extend_from_slice(b" refused");
    push_figures(text, &[rule as u64]);
}

// One line of `fleet`.
pub fn push_line(text: &mut Vec<u8>, number: usize, answer: Answer) {
    push_number(text, number as u64);
    match answer {
        Answer::Refused(rule) => push_refusal(text, rule),
        Answer::Exact { imo, lower, upper } => push_figures(text, &[imo as u64, lower, upper]),
        Answer::Near { imo, favourable, least, .. } => push_figures(text, &[imo as u64, below(favourable), above(least)]),
    }
}

// One line of `speeds`.
pub fn push_speed_line(text: &mut Vec<u8>, number: usize, answer: SpeedAnswer) {
    push_number(text, number as u64);
    match answer {
        SpeedAnswer::Refused(rule) => push_refusal(text, rule),
        SpeedAnswer::Speeds { imo, most, least } => {
            let ([most_low, most_high], [least_low, least_high]) = (most.bounds(), least.bounds());
            push_figures(text, &[imo as u64, most_low, most_high, least_low, least_high]);
        }
    }
}

// As many bytes as the piece holds, fewer only at the end of the input.
fn fill(input: &mut File, piece: &mut [u8]) -> usize {
    let mut filled = 0;
    while filled < piece.len() {
        match input.read(&mut piece[filled..]) {
            Ok(0) | Err(_) => break,
            Ok(count) => filled += count,
        }
    }
    filled
}

// The line of each block of standard input, as `push` puts it.
fn print_lines<P: Fn(&mut Vec<u8>, usize, &[u8])>(push: P) {
    let mut input = File::from(std::io::stdin().as_fd().try_clone_to_owned().expect("standard input is open"));
    let mut output = File::from(std::io::stdout().as_fd().try_clone_to_owned().expect("standard output is open"));
    let mut piece = vec![0u8; 256 * BLOCK];
    let mut number = 0;
    while number < MOST_BLOCKS {
        let filled = fill(&mut input, &mut piece);
        let mut text = Vec::with_capacity(256 * 48);
        for block in piece[..filled].chunks(BLOCK) {
            push(&mut text, number, block);
            number += 1;
        }
        // A reader that left wants no more lines, and no message either.
        if output.write_all(&text).is_err() || filled < piece.len() {
            return;
        }
    }
}

pub fn main() {
    match std::env::args().nth(1).as_deref() {
        None => print_lines(|text, number, block| push_line(text, number, answer(block))),
        Some("speeds") => print_lines(|text, number, block| push_speed_line(text, number, speeds(block))),
        Some(_) => {
            eprintln!("usage: desk [speeds]");
            exit(2)
        }
    }
}
