// The test of the library from outside. Its callers (tests/callers) print two lines for every piece of a file; here the lines are held
// to those that `fleet` and `speeds` print: for stored blocks, for blocks of every kind from a fixed seed, and for pieces of every length
// up to 1,024. With a faulty library the callers have to notice the fault. Last come the two examples.
// Usage: hull ROOM COMMAND...
//   COMMAND runs the program that is named behind it, fleet or speeds
//   ROOM/callers has a command for each caller, ROOM/faulty the same with the faulty library; ROOM/answer and ROOM/settled are the examples
#[path = "breaks.rs"]
mod breaks;
#[allow(dead_code)]
#[path = "edges.rs"]
mod edges;
#[allow(dead_code)]
#[path = "editions.rs"]
mod editions;
#[allow(dead_code)]
#[path = "hulls.rs"]
mod hulls;
#[allow(dead_code)]
#[path = "program.rs"]
mod program;
#[path = "rated.rs"]
mod rated;
#[path = "ships.rs"]
mod ships;

use edges::*;
use editions::*;
use hulls::*;
use rated::*;
use ships::*;
use std::fs::{read, read_dir, write};
use std::process::exit;
use std::sync::atomic::{AtomicUsize, Ordering};
use std::thread::scope;

const SEED: u64 = 0x2545_f491_4f6c_dd1d;
const BLOCK: usize = 512;
const MOST_BLOCKS: usize = 65_536;
const LONGEST: usize = 1_024;
// Each struct of the header: its size, its alignment and the places of its parts.
const SHAPES: &str = "answer 40 by 8: 0 8 16 24\npair 16 by 8: 0 8\nspeed_answer 40 by 8: 0 8 24\nknots 16 by 8: 0 8\n";
// Layouts that there are none of.
const NO_LAYOUT: [u64; 4] = [0, 3, 0x101, 0x200];

// Who has to notice a fault. The caller in C also lends memory that can't be written, beside memory that can't be read, and rounds in
// every way; all but Python, whose bytes stay what they are, change a byte and ask again; the one in C++ has threads.
#[derive(Clone, Copy, PartialEq)]
enum Who {
    All,
    C,
    NotPython,
    Threads,
}

const FAULTS: [(&str, Who); 93] = [
    ("exchanges the bounds", Who::All),
    ("lower bound one less", Who::All),
    ("constant bounds", Who::All),
    ("refuses all", Who::All),
    ("refuses all with 1", Who::All),
    ("another refusal", Who::All),
    ("bounds beside a refusal", Who::All),
    ("neither bounds nor refusal", Who::All),
    ("upper double one more", Who::All),
    ("lower double half more", Who::All),
    ("doubles in grams", Who::All),
    ("minus zero", Who::All),
    ("minus zero when rounding down", Who::C),
    ("takes 511 bytes", Who::All),
    ("takes more than 512 bytes", Who::All),
    ("length in 16 bits", Who::All),
    ("length in 32 bits", Who::C),
    ("reads a null pointer", Who::All),
    ("reads a byte behind", Who::C),
    ("reads a byte before", Who::C),
    ("changes a byte of a block", Who::All),
    ("changes a byte of another length", Who::All),
    ("changes a byte and puts it back", Who::C),
    ("previous answer", Who::All),
    ("previous answer at the same address", Who::NotPython),
    ("one place for all threads", Who::Threads),
    ("single refusal differs", Who::All),
    ("single lower bound differs", Who::All),
    ("single upper bound differs", Who::All),
    ("single doubles differ", Who::All),
    ("speeds: exchanges the ships", Who::All),
    ("speeds: most favourable ship twice", Who::All),
    ("speeds: least favourable ship twice", Who::All),
    ("speeds: exchanges the bounds", Who::All),
    ("speeds: lower bounds as upper ones", Who::All),
    ("speeds: upper bounds as lower ones", Who::All),
    ("speeds: most favourable lower bound one less", Who::All),
    ("speeds: most favourable upper bound one more", Who::All),
    ("speeds: least favourable lower bound one less", Who::All),
    ("speeds: least favourable upper bound one more", Who::All),
    ("speeds: constant", Who::All),
    ("speeds: in hundredths", Who::All),
    ("speeds: refuses all", Who::All),
    ("speeds: another refusal", Who::All),
    ("speeds: a speed beside a refusal", Who::All),
    ("speeds: neither speed nor refusal", Who::All),
    ("speeds: takes 511 bytes", Who::All),
    ("speeds: takes more than 512 bytes", Who::All),
    ("speeds: length in 16 bits", Who::All),
    ("speeds: length in 32 bits", Who::C),
    ("speeds: reads a null pointer", Who::All),
    ("speeds: reads a byte behind", Who::C),
    ("speeds: reads a byte before", Who::C),
    ("speeds: changes a byte of a block", Who::All),
    ("speeds: changes a byte of another length", Who::All),
    ("speeds: changes a byte and puts it back", Who::C),
    ("speeds: previous answer", Who::All),
    ("speeds: previous answer at the same address", Who::NotPython),
    ("speeds: one place for all threads", Who::Threads),
    ("index: ignores the speed", Who::All),
    ("index: ignores the most favourable ship", Who::All),
    ("index: ignores the least favourable ship", Who::All),
    ("index: ignores the most favourable lower bound", Who::All),
    ("index: ignores the most favourable upper bound", Who::All),
    ("index: ignores the least favourable lower bound", Who::All),
    ("index: ignores the least favourable upper bound", Who::All),
    ("index: compares 32 bits", Who::All),
    ("index: takes the ships exchanged", Who::All),
    ("index: takes the bounds exchanged", Who::All),
    ("index: takes no speed", Who::All),
    ("index: takes the greatest", Who::All),
    ("index: takes the last ship's speed", Who::All),
    ("index: takes the last ship's speed alone", Who::All),
    ("index: 13 before any refusal", Who::All),
    ("index: 13 for no speed before any refusal", Who::All),
    ("index: 13 before refusal 14", Who::All),
    ("index: refuses all with 13", Who::All),
    ("index: lower bound one less", Who::All),
    ("index: doubles in grams", Who::All),
    ("index: another refusal", Who::All),
    ("index: bounds beside a refusal", Who::All),
    ("index: minus zero", Who::All),
    ("index: takes 511 bytes", Who::All),
    ("index: takes more than 512 bytes", Who::All),
    ("index: length in 16 bits", Who::All),
    ("index: length in 32 bits", Who::C),
    ("index: reads a null pointer", Who::All),
    ("index: reads a byte behind", Who::C),
    ("index: changes a byte of a block", Who::All),
    ("index: changes a byte and puts it back", Who::C),
    ("index: previous answer", Who::All),
    ("index: previous answer at the same address", Who::All),
    ("index: one place for all threads", Who::Threads),
];

// Bytes to ask about, and what stands behind the number in their line of `fleet` and in that of `speeds`.
#[derive(Clone)]
struct Case {
    bytes: Vec<u8>,
    words: String,
    speed: String,
}

struct Programs {
    fleet: Vec<String>,
    speeds: Vec<String>,
}

struct Caller {
    name: String,
    command: String,
}

fn fail(why: &str) -> ! {
    eprintln!("hull: {}", why);
    exit(1)
}

fn bytes_of(path: &str) -> Vec<u8> {
    read(path).unwrap_or_else(|_| fail(&format!("{} cannot be read from here", path)))
}

// The program's whole output.
fn lines_of(program: &[String], bytes: &[u8]) -> String {
    program::by_pipe(program, bytes, None).whole().unwrap_or_else(|why| fail(&why))
}

// What the program prints for each block or last piece, without the number.
fn words_of(program: &[String], pieces: &[Vec<u8>]) -> Vec<String> {
    let text = lines_of(program, &pieces.concat());
    let mut words = Vec::new();
    for (number, line) in text.lines().enumerate() {
        match line.strip_prefix(&format!("{} ", number)) {
            Some(rest) => words.push(rest.to_string()),
            None => fail(&format!("line {} of the program is '{}'", number, line)),
        }
    }
    let whole: String = words.iter().enumerate().map(|(number, rest)| format!("{} {}\n", number, rest)).collect();
    if words.len() != pieces.len() || whole != text {
        fail(&format!("the program printed {} lines for {} blocks", words.len(), pieces.len()));
    }
    words
}

fn cases_of(programs: &Programs, pieces: &[Vec<u8>]) -> Vec<Case> {
    let lines = words_of(&programs.fleet, pieces).into_iter().zip(words_of(&programs.speeds, pieces));
    pieces.iter().zip(lines).map(|(bytes, (words, speed))| Case { bytes: bytes.clone(), words, speed }).collect()
}

// The lines of both programs for each case, as the callers print them.
fn text_of(cases: &[Case]) -> String {
    cases.iter().enumerate().map(|(number, case)| format!("{} {}\n{} {}\n", number, case.words, number, case.speed)).collect()
}

// The file that the callers read: each piece behind its length.
fn write_pieces(path: &str, cases: &[Case]) {
    let mut bytes = Vec::new();
    for case in cases {
        bytes.extend(&(case.bytes.len() as u32).to_le_bytes());
        bytes.extend(&case.bytes);
    }
    write(path, bytes).unwrap_or_else(|_| fail("no room for a file of pieces"));
}

fn callers_in(directory: &str) -> Vec<Caller> {
    let entries = read_dir(directory).unwrap_or_else(|_| fail(&format!("there are no callers in {}", directory)));
    let mut names: Vec<String> = entries.map(|entry| entry.unwrap().file_name().into_string().unwrap()).collect();
    names.sort();
    if !["C -O0", "C -O2", "C++"].iter().all(|name| names.iter().any(|other| other == name)) {
        fail(&format!("there are only these callers: {:?}", names));
    }
    names.into_iter().map(|name| Caller { command: format!("{}/{}", directory, name), name }).collect()
}

impl Caller {
    // With which fault, none where the name is empty; on which file of pieces, for the shapes of the structs on none.
    fn run(&self, fault: &str, path: &str) -> Result<String, String> {
        let mut words: Vec<String> = vec!["env".to_string(), format!("FAULT={}", fault), self.command.clone()];
        words.extend(Some(path.to_string()).filter(|path| !path.is_empty()));
        program::by_pipe(&words, &[], None).whole()
    }
    // Its lines for a file of pieces are these to the byte.
    fn hold(&self, path: &str, right: &str) {
        let text = self.run("", path).unwrap_or_else(|why| fail(&format!("the caller {}: {}", self.name, why)));
        if text != right {
            let differs = text.lines().zip(right.lines()).find(|(line, right)| line != right);
            let (line, right) = differs.unwrap_or(("another number of lines", "what it should"));
            fail(&format!("the caller {} prints '{}', the programs '{}'", self.name, line, right));
        }
    }
    fn has_to_notice(&self, who: Who) -> bool {
        match who {
            Who::All => true,
            Who::C => self.name.starts_with("C "),
            Who::NotPython => self.name != "Python",
            Who::Threads => self.name == "C++",
        }
    }
}

// The pieces stored for the program `files`, each with the refusal stored for it. A case there is the lengths of a piece and of a file,
// two bytes each, a block number of eight, the piece and the file.
fn pieces_of_files() -> Vec<(Vec<u8>, String)> {
    let bytes = bytes_of("crates/files/stdin");
    let text = String::from_utf8(bytes_of("crates/files/stdout")).unwrap();
    let (mut rest, mut pieces) = (&bytes[..], Vec::new());
    for line in text.lines() {
        let length = |at: usize| rest[at] as usize + 256 * rest[at + 1] as usize;
        let (piece, end) = (length(0), 12 + length(0) + length(2));
        pieces.push((rest[12..12 + piece].to_vec(), line.split(' ').next().unwrap().to_string()));
        rest = &rest[end..];
    }
    if !rest.is_empty() {
        fail("crates/files/stdin holds more than crates/files/stdout answers");
    }
    pieces
}

// The stored refusal is the one in the line; 0 is none.
fn hold_stored(stored: &[(Vec<u8>, String)], cases: &[Case]) {
    for ((_, rule), case) in stored.iter().zip(cases) {
        let refused = case.words.strip_prefix("refused ");
        if refused.unwrap_or("0") != rule {
            fail(&format!("a stored piece with refusal {} is answered '{}'", rule, case.words));
        }
    }
}

// Blocks of every kind, in an order that mixes them.
fn generated(random: &mut Random) -> Vec<Block> {
    let mut all = Vec::new();
    for (kind, method) in older_kinds() {
        all.extend((0..160).map(|each| draw(random, kind, method, each % 3 == 0)));
    }
    for (kind, method) in kinds() {
        all.extend((0..120).map(|each| draw_layout_2(random, kind, method, each % 3 == 0)));
    }
    for each in 0..2_400 {
        all.push(draw_new(random, 1 + each % 8, 1 + each / 8 % 2, each % 3 == 0));
    }
    at_imo_ends(random, &mut all);
    at_extremes(random, &mut all);
    at_whole_index(random, &mut all);
    at_lightweight_ends(random, &mut all);
    at_hull_ends(random, &mut all);
    at_crane_counts(random, &mut all);
    damaged(random, 1_500, &mut all);
    random_bytes(random, 1_000, &mut all);
    for (layout, each) in [(1, 20), (2, 20)].iter() {
        all.extend(breaks::broken(random, *each, *layout, &NO_LAYOUT).into_iter().map(|(block, _)| block));
    }
    all.extend(at_rule_19(random).into_iter().map(|(block, _)| block));
    all.extend(at_rated_power(random).into_iter().step_by(8).map(|(block, _)| block));
    for at in 1..all.len() {
        all.swap(at, random.from(0, at as u64) as usize);
    }
    all
}

// Ships known within ranges of speed, of rated power, of consumption, and of all of these: from a hundredth of a knot to all that a speed
// may be. A general cargo ship's speed is no range.
fn ranged() -> Vec<Block> {
    let mut all = Vec::new();
    for ship in &[ship_s(), in_edition(ship_s(), 1), vehicle_carrier(0), vehicle_carrier(2)] {
        for speed in &[[1_380, 1_430], [500, 6_000], [5_999, 6_000], [1_400, 1_400]] {
            all.extend([[0, 0], [100, 0], [0, 55], [900, 5]].iter().map(|added| with_ranges(ship, *speed, *added)));
        }
    }
    all.extend([[0, 0], [100, 0], [0, 55]].iter().map(|added| with_ranges(&coaster(1_400), [1_400, 1_400], *added)));
    all
}

// The ship with that range of speed, and so much more rated power and consumption at their high ends.
fn with_ranges(ship: &Block, speed: [u64; 2], added: [u64; 2]) -> Block {
    let mut block = *ship;
    for (ends, more) in [(mcr(0), added[0]), (consumption(0).0, added[1])].iter() {
        put(&mut block, ends[1], get(ship, ends[0]) + more);
    }
    put(&mut block, SPEED[0], speed[0]);
    put(&mut block, SPEED[1], speed[1]);
    sealed(block)
}

fn numbers(words: &str) -> Vec<u64> {
    words.split(' ').map(|word| word.parse().unwrap_or(u64::MAX)).collect()
}

// What the rules say of a speed by themselves: a declared one is both bounds, the most favourable ship having the high end; otherwise both
// ships are one, and a trial's speed goes with the cube root of the power. Far above the error of the doubles here is 1e-12.
fn speed_is_right(block: &Block, case: &Case) -> bool {
    if case.words.starts_with("refused") {
        return case.speed == case.words;
    }
    let found = numbers(&case.speed);
    if found.len() != 5 || found[0] != get(block, IMO) {
        return false;
    }
    let recorded = |end: usize| 10_000 * get(block, SPEED[end]);
    let by_power = (main_power(block) as f64 / (100 * get(block, TRIAL_POWER).max(1)) as f64).cbrt();
    let knots = recorded(0) as f64 * by_power;
    let close = |pair: &[u64]| pair[0] <= pair[1] && pair[1] < 1 << 53 && pair[1] - pair[0] <= pair[1] / 1_000_000 + 2;
    let one_ship = found[1..3] == found[3..5] && close(&found[1..3]);
    match get(block, METHOD) {
        1 => found[1..] == [recorded(1), recorded(1), recorded(0), recorded(0)],
        2 => one_ship && found[1] as f64 <= knots * (1.0 + 1e-12) && knots * (1.0 - 1e-12) <= found[2] as f64,
        _ => one_ship,
    }
}

// What there is among the blocks, so that no kind can go missing unseen.
#[derive(Default)]
struct Count {
    accepted: u64,
    by_kind: [[u64; 5]; 9],
    by_edition: [u64; 3],
    with_ranges: u64,
    with_two_speeds: u64,
    with_open_speed: u64,
    refused: [u64; 20],
}

// Whether the most and the least favourable ship have different speeds; whether a speed's bounds differ.
fn has_two_speeds(case: &Case) -> bool {
    let found = numbers(&case.speed);
    found.len() == 5 && found[1..3] != found[3..5]
}

fn has_open_speed(case: &Case) -> bool {
    let found = numbers(&case.speed);
    found.len() == 5 && found[1] != found[2]
}

fn has_ranges(block: &Block) -> bool {
    let engines = get(block, ENGINES).min(4) as usize;
    let powers = (0..engines).map(mcr);
    let consumptions = (0..engines).chain(4..5).map(|engine| consumption(engine).0);
    powers.chain(consumptions).chain(Some(SPEED)).any(|ends| get(block, ends[0]) != get(block, ends[1]))
}

impl Count {
    fn add(&mut self, block: &Block, case: &Case) {
        if let Some(rule) = case.words.strip_prefix("refused ") {
            let rule: usize = rule.parse().unwrap_or(0);
            return self.refused[rule.min(19)] += 1;
        }
        self.accepted += 1;
        self.by_kind[get(block, TYPE) as usize][get(block, METHOD) as usize] += 1;
        self.by_edition[get(block, EDITION) as usize] += 1;
        self.with_ranges += has_ranges(block) as u64;
        self.with_two_speeds += has_two_speeds(case) as u64;
        self.with_open_speed += has_open_speed(case) as u64;
    }
    fn hold(&self) {
        let rare_kind = kinds().into_iter().any(|(kind, method)| self.by_kind[kind as usize][method as usize] < 100);
        let rare_rule = (2..17).chain(18..20).any(|rule| self.refused[rule] < 100);
        let rare_speed = self.with_two_speeds < 500 || self.with_open_speed < 2_000;
        if rare_kind || rare_rule || rare_speed || self.by_edition.iter().any(|count| *count < 1_000) || self.with_ranges < 2_000 {
            fail("a kind of block hardly occurs");
        }
    }
    fn print(&self) {
        let kinds: Vec<u64> = self.by_kind[1..].iter().map(|methods| methods.iter().sum()).collect();
        let methods: Vec<u64> = (1..5).map(|method| self.by_kind.iter().map(|methods| methods[method]).sum()).collect();
        let refused: Vec<String> = (2..17).chain(18..20).map(|rule| format!("{}: {}", rule, self.refused[rule])).collect();
        print!("hull: with bounds {}: types 1-8 {:?}, methods 1-4 {:?}, ", self.accepted, kinds, methods);
        print!("editions 0-2 {:?}, with ranges {}, ", self.by_edition, self.with_ranges);
        println!("with two speeds {}, with a speed between bounds {}", self.with_two_speeds, self.with_open_speed);
        println!("hull: refused by {}", refused.join(", "));
    }
}

fn block_of(bytes: &[u8]) -> Block {
    let mut block = [0; BLOCK];
    block.copy_from_slice(bytes);
    block
}

// The program `speeds` by itself, for blocks; and what there is among them.
fn hold_blocks(cases: &[Case]) {
    let mut count = Count::default();
    for case in cases.iter().filter(|case| case.bytes.len() == BLOCK) {
        let block = block_of(&case.bytes);
        if !speed_is_right(&block, case) {
            fail(&format!("speeds prints '{}' of a ship by method {} where fleet prints '{}'", case.speed, get(&block, METHOD), case.words));
        }
        count.add(&block, case);
    }
    count.hold();
    count.print();
}

// All blocks, generated and stored, with the programs' answers; last the piece with which the sample breaks off.
fn whole_blocks(programs: &Programs) -> Vec<Case> {
    let mut pieces: Vec<Vec<u8>> = generated(&mut Random(SEED)).iter().chain(&ranged()).map(|block| block.to_vec()).collect();
    let drawn = pieces.len();
    let files: Vec<(Vec<u8>, String)> = pieces_of_files().into_iter().filter(|(piece, _)| piece.len() == BLOCK).collect();
    pieces.extend(files.iter().map(|(piece, _)| piece.clone()));
    for path in ["crates/fleet/stdin", "sample/fleet.blocks"].iter() {
        pieces.extend(bytes_of(path).chunks(BLOCK).map(|piece| piece.to_vec()));
    }
    if drawn < 20_000 || pieces.len() > MOST_BLOCKS {
        fail(&format!("{} generated blocks are too few, or {} together too many for a run", drawn, pieces.len()));
    }
    let cases = cases_of(programs, &pieces);
    hold_stored(&files, &cases[drawn..]);
    if cases[drawn - ranged().len()..drawn].iter().any(|case| case.words.starts_with("refused")) {
        fail("a ship with ranges is refused");
    }
    println!("hull: {} generated blocks and {} stored ones", drawn, pieces.len() - drawn);
    hold_blocks(&cases);
    cases
}

// Rows of 1,024 bytes: accepted blocks with others, set bytes or zeros behind them, no block at all, and other bytes before a block.
fn rows(random: &mut Random) -> Vec<Vec<u8>> {
    let mut noise = || -> Vec<u8> { (0..LONGEST).map(|_| random.next() as u8).collect() };
    let row = |first: &[u8], second: &[u8]| [&first[..BLOCK], &second[..BLOCK]].concat();
    let (set, zero) = ([255; BLOCK], [0; BLOCK]);
    vec![
        row(&ship_s(), &ship_s()),
        row(&coaster(1_400), &set),
        row(&vehicle_carrier(2), &zero),
        row(&zero, &zero),
        noise(),
        row(&noise(), &ship_s()),
    ]
}

// Every length from 0 to 1,024 of each row, of the last one its end; lengths that 16 bits would cut to 512 or 0; and the stored pieces
// that are no blocks. Whatever isn't 512 bytes is refused with 1.
fn lengths(programs: &Programs) -> Vec<Case> {
    let rows = rows(&mut Random(SEED));
    let last = rows.len() - 1;
    let part = |number: usize, length: usize| match number == last {
        true => rows[number][LONGEST - length..].to_vec(),
        false => rows[number][..length].to_vec(),
    };
    let blocks: Vec<Vec<u8>> = (0..rows.len()).map(|number| part(number, BLOCK)).collect();
    let answers = cases_of(programs, &blocks);
    let refused = |bytes: Vec<u8>| Case { bytes, words: "refused 1".to_string(), speed: "refused 1".to_string() };
    let ships = |length: usize| -> Vec<u8> { ship_s().iter().cycle().take(length).cloned().collect() };
    let mut others = vec![ships(65_536), ships(65_536 + BLOCK)];
    others.extend(pieces_of_files().into_iter().map(|(piece, _)| piece).filter(|piece| piece.len() != BLOCK));
    let mut cases: Vec<Case> = Vec::new();
    for (number, answer) in answers.iter().enumerate() {
        for length in 0..LONGEST + 1 {
            cases.push(if length == BLOCK { answer.clone() } else { refused(part(number, length)) });
        }
    }
    cases.extend(others.into_iter().map(refused));
    cases
}

// Where a program can be given such a piece, a file of 1 to 511 bytes, it prints the same; of no bytes it prints nothing.
fn hold_short_files(program: &[String], cases: &[Case]) -> usize {
    let short = [1, 2, 3, 4, 8, 255, 256, 257, 508, 509, 510, 511];
    for length in short.iter() {
        let case = cases.iter().filter(|case| case.bytes.len() == *length).nth(length % 6).unwrap();
        if lines_of(program, &case.bytes) != format!("0 {}\n", case.words) {
            fail(&format!("{} does not refuse a file of {} bytes as the library must", program[program.len() - 1], length));
        }
    }
    if !lines_of(program, &[]).is_empty() {
        fail(&format!("{} prints something for an empty file", program[program.len() - 1]));
    }
    short.len()
}

// A few blocks of each refusal, some with bounds, with two speeds and with a speed between bounds, and pieces of the lengths at which a
// fault could show.
fn few(blocks: &[Case], lengths: &[Case]) -> Vec<Case> {
    let mut some: Vec<Case> = blocks.iter().filter(|case| !case.words.starts_with("refused")).take(20).cloned().collect();
    some.extend(blocks.iter().filter(|case| has_two_speeds(case)).take(5).cloned());
    some.extend(blocks.iter().filter(|case| has_open_speed(case)).take(5).cloned());
    for rule in 2..20 {
        let words = format!("refused {}", rule);
        some.extend(blocks.iter().filter(|case| case.words == words).take(3).cloned());
    }
    let telling = [0, 1, 511, 512, 513, 768, 1_024, 65_536 + BLOCK];
    for length in telling.iter() {
        some.extend(lengths.iter().filter(|case| case.bytes.len() == *length).take(2).cloned());
    }
    some
}

// The same for each caller, two at a time.
fn for_each(callers: &[Caller], work: impl Fn(&Caller) + Sync) {
    let next = AtomicUsize::new(0);
    let take = || while let Some(caller) = callers.get(next.fetch_add(1, Ordering::Relaxed)) {
        work(caller);
    };
    scope(|both| {
        both.spawn(take);
        take();
    });
}

// Every caller with the faulty library: it keeps the lines where no fault is chosen, and notices each fault that it has to.
fn hold_faults(room: &str, cases: &[Case]) {
    let path = format!("{}/few", room);
    let right = text_of(cases);
    write_pieces(&path, cases);
    let callers = callers_in(&format!("{}/faulty", room));
    let faults_for = |caller: &Caller| -> Vec<&str> {
        FAULTS.iter().filter(|(_, who)| caller.has_to_notice(*who)).map(|(name, _)| *name).collect()
    };
    for_each(&callers, |caller| {
        caller.hold(&path, &right);
        for fault in faults_for(caller) {
            if caller.run(fault, &path).map_or(false, |text| text == right) {
                fail(&format!("the caller {} does not notice the fault '{}'", caller.name, fault));
            }
        }
    });
    let noticed: Vec<String> = callers.iter().map(|caller| format!("{} {}", caller.name, faults_for(caller).len())).collect();
    println!("hull: {} faults, each noticed: {}", FAULTS.len(), noticed.join(", "));
}

// What an example has said: standard output, whether there was just one line on standard error, and the number that it ended with.
#[derive(Debug, PartialEq)]
struct Said {
    text: String,
    complaint: bool,
    code: Option<i32>,
}

fn said(text: &str, code: i32) -> Said {
    Said { text: text.to_string(), complaint: code == 2, code: Some(code) }
}

// The example with these words.
fn run_example(room: &str, example: &str, words: &[&str]) -> Said {
    let command: Vec<String> = Some(format!("{}/{}", room, example)).into_iter().chain(words.iter().map(|word| word.to_string())).collect();
    let ran = program::by_pipe(&command, &[], None);
    let one_line = ran.complaint.len() > 1 && ran.complaint.find('\n') == Some(ran.complaint.len() - 1);
    if !ran.complaint.is_empty() && !one_line {
        fail(&format!("the example {} says '{}'", example, ran.complaint));
    }
    Said { text: ran.text, complaint: one_line, code: ran.status.and_then(|status| status.code()) }
}

fn hold_example(room: &str, example: &str, words: &[&str], right: Said) {
    let came = run_example(room, example, words);
    if came != right {
        fail(&format!("the example {} with {:?} has {:?}; right is {:?}", example, words, came, right));
    }
}

// A file with a block, by its name.
fn block_file(room: &str, bytes: &[u8]) -> String {
    let path = format!("{}/block", room);
    write(&path, bytes).unwrap_or_else(|_| fail("no room for a block"));
    path
}

// What an example has to say to a case: its index, or its speed without the IMO number.
fn example_index(words: &str) -> Said {
    if words.starts_with("refused") {
        return said(&format!("{}\n", words), 1);
    }
    let grams = |millionths: u64| format!("{}.{:06}", millionths / 1_000_000, millionths % 1_000_000);
    let found = numbers(words);
    said(&format!("at least {}, at most {} g CO2/(t nm)\n", grams(found[1]), grams(found[2])), 0)
}

fn example_speed(words: &str) -> Said {
    match words.starts_with("refused") {
        true => said(&format!("{}\n", words), 1),
        false => said(&format!("{}\n", words.splitn(2, ' ').nth(1).unwrap()), 0),
    }
}

// The least and the greatest index and speed, an index with a zero behind the point, ships with two speeds, every refusal and other lengths.
fn example_cases(blocks: &[Case], some: &[Case]) -> Vec<Case> {
    let bounded = || blocks.iter().filter(|case| !case.words.starts_with("refused"));
    let upper = |case: &&Case| numbers(&case.words)[2];
    let fastest = |case: &&Case| numbers(&case.speed)[2];
    let zero = bounded().find(|case| upper(case) % 1_000_000 < 100_000);
    let by_index = vec![bounded().min_by_key(upper), bounded().max_by_key(upper), zero];
    let by_speed = vec![bounded().min_by_key(fastest), bounded().max_by_key(fastest)];
    let mut cases: Vec<Case> = by_index.into_iter().chain(by_speed).flatten().cloned().collect();
    cases.extend(some.iter().filter(|case| case.words.starts_with("refused") || has_two_speeds(case)).cloned());
    cases
}

fn hold_answer(room: &str, cases: &[Case]) {
    let sample = block_file(room, &bytes_of("sample/fleet.blocks")[..BLOCK]);
    hold_example(room, "answer", &[&sample], said("at least 5.170857, at most 5.170858 g CO2/(t nm)\n", 0));
    for case in cases {
        hold_example(room, "answer", &[&block_file(room, &case.bytes)], example_index(&case.words));
    }
    hold_example(room, "answer", &[&format!("{}/none", room)], said("", 2));
    println!("hull: the example answer is right about {} files, and ends with 2 when there is none", cases.len() + 1);
}

// Two ships of the sample by their figures, and each with the other's.
fn hold_settled_sample(room: &str) {
    let sample = bytes_of("sample/fleet.blocks");
    let ships = [
        (0, ["14000000", "14000000", "14000000", "14000000"], "at least 5.170857, at most 5.170858 g CO2/(t nm)\n"),
        (8, ["14300000", "14300000", "13800000", "13800000"], "at least 4.440403, at most 4.855217 g CO2/(t nm)\n"),
    ];
    for (number, own, index) in ships.iter() {
        let path = block_file(room, &sample[number * BLOCK..(number + 1) * BLOCK]);
        hold_example(room, "settled", &[&path], said(&format!("{}\n", own.join(" ")), 0));
        for (_, other, _) in ships.iter() {
            let right = if own == other { said(index, 0) } else { said("refused 13\n", 1) };
            hold_example(room, "settled", &[&path, other[0], other[1], other[2], other[3]], right);
        }
    }
}

// The speed, then the index from it, and from other figures: of a refused block whatever they are.
fn hold_settled_cases(room: &str, cases: &[Case]) {
    for case in cases {
        let path = block_file(room, &case.bytes);
        hold_example(room, "settled", &[&path], example_speed(&case.speed));
        let refused = case.words.starts_with("refused");
        let own: Vec<&str> = if refused { vec!["0"; 4] } else { case.speed.split(' ').skip(1).collect() };
        hold_example(room, "settled", &[&path, own[0], own[1], own[2], own[3]], example_index(&case.words));
        let other = if refused { case.words.clone() } else { "refused 13".to_string() };
        hold_example(room, "settled", &[&path, own[0], own[1], own[2], "18446744073709551615"], example_index(&other));
    }
}

// What is no decimal number below 2 to the 64th, in one place after another; words of another number; and what can't be read.
fn hold_settled_words(room: &str) -> usize {
    let path = block_file(room, &ship_s());
    let wrong = [
        "", " ", "-14000000", "+14000000", "-0", " 14000000", "14000000 ", "\t14000000", "14000000.0", "14.0", "14,000,000",
        "14'000'000", "14_000_000", "0xd59f80", "1.4e7", "14000000k", "fourteen", "18446744073709551616", "18446744073723551616",
        "20000000000000000000", "100000000000000000000", "1844674407370955161600",
    ];
    for (number, figure) in wrong.iter().enumerate() {
        let mut words = [&path[..], "14000000", "14000000", "14000000", "14000000"];
        words[1 + number % 4] = *figure;
        hold_example(room, "settled", &words, said("", 2));
    }
    for count in [0, 2, 3, 4, 6].iter() {
        let words: Vec<&str> = Some(&path[..]).into_iter().chain(vec!["14000000"; 5]).take(*count).collect();
        hold_example(room, "settled", &words, said("", 2));
    }
    for unread in &[format!("{}/none", room), room.to_string()] {
        hold_example(room, "settled", &[unread], said("", 2));
        hold_example(room, "settled", &[unread, "14000000", "14000000", "14000000", "14000000"], said("", 2));
    }
    let zeros = [&path[..], "014000000", "0014000000", "00000000000000000000014000000", "14000000"];
    hold_example(room, "settled", &zeros, said("at least 5.170857, at most 5.170858 g CO2/(t nm)\n", 0));
    wrong.len() + 5
}

fn hold_settled(room: &str, cases: &[Case]) {
    hold_settled_sample(room);
    hold_settled_cases(room, cases);
    let wrong = hold_settled_words(room);
    println!("hull: the example settled is right about {} files in both steps, and ends with 2 for {} kinds of words", cases.len() + 2, wrong);
}

// The sizes of the structs and the places of their parts, as every caller sees them, are those of C on x86-64.
fn hold_shapes(callers: &[Caller]) {
    for caller in callers {
        let shape = caller.run("", "").unwrap_or_else(|why| fail(&format!("the caller {}: {}", caller.name, why)));
        if shape != SHAPES {
            fail(&format!("the caller {} sees structs of other shapes: '{}'", caller.name, shape));
        }
    }
}

fn main() {
    let arguments: Vec<String> = std::env::args().skip(1).collect();
    if arguments.len() < 2 {
        fail("usage: hull ROOM COMMAND...");
    }
    let room = &arguments[0];
    let named = |name: &str| -> Vec<String> { arguments[1..].iter().cloned().chain(Some(name.to_string())).collect() };
    let programs = Programs { fleet: named("fleet"), speeds: named("speeds") };
    let callers = callers_in(&format!("{}/callers", room));
    hold_shapes(&callers);
    let (blocks, lengths) = (whole_blocks(&programs), lengths(&programs));
    let short = hold_short_files(&programs.fleet, &lengths) + hold_short_files(&programs.speeds, &lengths);
    println!("hull: {} pieces of 0 to {} bytes and longer, {} of them files that the programs refuse alike", lengths.len(), LONGEST, short);
    for (name, cases) in [("blocks", &blocks), ("lengths", &lengths)].iter() {
        let (path, right) = (format!("{}/{}", room, name), text_of(cases));
        write_pieces(&path, cases);
        for_each(&callers, |caller| caller.hold(&path, &right));
    }
    let names: Vec<&str> = callers.iter().map(|caller| &caller.name[..]).collect();
    println!("hull: the lines of fleet and speeds, byte for byte, from {}", names.join(", "));
    let some = few(&blocks, &lengths);
    hold_faults(room, &some);
    let cases = example_cases(&blocks, &some);
    hold_answer(room, &cases);
    hold_settled(room, &cases);
}
