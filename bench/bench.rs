// Times a program against its rival on six fleets of 65,536 blocks from a fixed seed; nothing is stored.
// The first four are the fleets of layout 1 as they were before there was another, so that times can be compared; a fleet that joins
// them is drawn last, which leaves the others as they were.
// Before it is timed, every line of both is held to the reference.
// Where ROOM has the program `calls`, calls of the library from C are timed in the same rounds, and their answers are the program's.
// Usage: bench ROOM RIVAL PROGRAM [ARGUMENT...]
#[path = "../tests/breaks.rs"]
mod breaks;
#[path = "../tests/desk.rs"]
mod desk;
#[path = "../tests/hold.rs"]
mod hold;
#[path = "../tests/ships.rs"]
mod ships;

use desk::{BLOCK, MOST_BLOCKS};
use ships::*;
use std::fs::{write, File};
use std::path::Path;
use std::process::{exit, Command, Stdio};
use std::time::{Duration, Instant};

const ROUNDS: usize = 5;
// Layouts that were none while 1 was the only one.
const ONCE_NO_LAYOUT: [u64; 4] = [0, 2, 0x101, 0x100];

fn fail(why: &str) -> ! {
    eprintln!("bench: {}", why);
    exit(1)
}

// Ships of these speed methods, types in turn, every fourth with ranges.
fn fleet(random: &mut Random, methods: &[u64], count: usize) -> Vec<Block> {
    let kinds: Vec<(u64, u64)> = older_kinds().into_iter().filter(|kind| methods.contains(&kind.1)).collect();
    (0..count).map(|number| {
        let (kind, method) = random.pick(&kinds);
        draw(random, kind, method, number % 4 == 0)
    }).collect()
}

// All methods, and a tenth refused.
fn mixed(random: &mut Random) -> Vec<Block> {
    let mut all: Vec<Block> = breaks::broken(random, 55, 1, &ONCE_NO_LAYOUT).iter().map(|(block, _)| *block).collect();
    let rest = fleet(random, &[1, 2, 3, 4], MOST_BLOCKS - all.len());
    all.extend(rest);
    for at in 1..all.len() {
        all.swap(at, random.from(0, at as u64) as usize);
    }
    all
}

// General cargo ships with a declared speed and one to eight cranes, every fourth with ranges of power and consumption.
fn coasters(random: &mut Random) -> Vec<Block> {
    (0..MOST_BLOCKS).map(|number| {
        let mut block = draw(random, 8, 1, number % 4 == 0);
        let count = random.from(1, 8);
        draw_cranes(&mut block, random, count);
        sealed(block)
    }).collect()
}

// New ships of all types in both editions of the EEDI, every fourth with ranges.
fn new_ships(random: &mut Random) -> Vec<Block> {
    (0..MOST_BLOCKS).map(|number| {
        let (kind, edition) = (random.from(1, 8), random.from(1, 2));
        draw_new(random, kind, edition, number % 4 == 0)
    }).collect()
}

fn fleet_of(random: &mut Random, name: &str) -> Vec<Block> {
    match name {
        "declared" => fleet(random, &[1], MOST_BLOCKS),
        "trial" => fleet(random, &[2, 3], MOST_BLOCKS),
        "statistical" => fleet(random, &[4], MOST_BLOCKS),
        "mixed" => mixed(random),
        "coasters" => coasters(random),
        _ => new_ships(random),
    }
}

fn command(program: &[String], path: &str) -> Command {
    let mut command = Command::new(&program[0]);
    command.args(&program[1..]).stdin(File::open(path).unwrap_or_else(|_| fail("no input file")));
    command
}

fn hold_lines(program: &[String], path: &str, bytes: &[u8]) -> String {
    let output = command(program, path).stderr(Stdio::inherit()).output().unwrap_or_else(|_| fail("the program cannot be started"));
    let answers: Vec<desk::Answer> = bytes.chunks(BLOCK).map(desk::answer).collect();
    let text = String::from_utf8_lossy(&output.stdout).into_owned();
    let wrong = hold::faults(&answers, &text);
    if let Some(why) = wrong.first() {
        fail(&format!("{} prints wrong lines, first {}", program[0], why));
    }
    text
}

fn once(program: &[String], path: &str) -> Duration {
    let begun = Instant::now();
    let status = command(program, path).stdout(Stdio::null()).status();
    let took = begun.elapsed();
    if !status.map(|status| status.success()).unwrap_or(false) {
        fail(&format!("{} did not end well", program[0]));
    }
    took
}

// What all calls together took, in one call for each block and in two steps, and the sums of refusals, lower and upper bounds that both gave.
fn call_once(calls: &str, path: &str) -> ([Duration; 2], [u64; 3]) {
    let output = Command::new(calls).arg(path).output().unwrap_or_else(|_| fail("the calls cannot be started"));
    let figures: Vec<u64> = String::from_utf8_lossy(&output.stdout).split_whitespace().filter_map(|word| word.parse().ok()).collect();
    match figures[..] {
        [one, refusals, lower, upper, two, ref again @ ..] if *again == [refusals, lower, upper] => {
            ([Duration::from_nanos(one), Duration::from_nanos(two)], [refusals, lower, upper])
        }
        _ => fail("the calls did not end well"),
    }
}

// The same sums over printed lines.
fn sums(text: &str) -> [u64; 3] {
    let mut sums = [0; 3];
    for line in text.lines() {
        let words: Vec<&str> = line.split(' ').collect();
        let figure = |at: usize| -> u64 { words[at].parse().unwrap_or_else(|_| fail("a line without a figure")) };
        match words[1] {
            "refused" => sums[0] += figure(2),
            _ => { sums[1] += figure(2); sums[2] += figure(3) }
        }
    }
    sums
}

// The best of several runs of each, in turn, so that a busy moment meets all; the calls' two times are the last.
fn best(programs: &[&[String]; 2], calls: Option<(&str, [u64; 3])>, path: &str) -> [Duration; 4] {
    let mut least = [Duration::from_secs(1_000_000); 4];
    for _ in 0..ROUNDS {
        for (who, program) in programs.iter().enumerate() {
            least[who] = least[who].min(once(program, path));
        }
        if let Some((calls, right)) = calls {
            let (took, answers) = call_once(calls, path);
            if answers != right {
                fail("the calls give other answers than the program prints");
            }
            (0..2).for_each(|way| least[2 + way] = least[2 + way].min(took[way]));
        }
    }
    least
}

// For each fleet the time of one block of the program, of one call and of both steps, in microseconds.
fn print_calls(rows: &[(&str, [f64; 3])]) {
    println!("One call of yagmurzol_ask from C for each block, in memory, beside the program; asked for is at most 1.1, declared.");
    println!("yagmurzol_speeds and then yagmurzol_index, beside that call; asked for is at most 2.1.");
    println!("{:<12}{:>18}{:>14}{:>10}{:>18}{:>10}", "ships", "program us/block", "us/call", "ratio", "us/both steps", "ratio");
    for (name, [block, one, two]) in rows {
        println!("{:<12}{:>18.3}{:>14.3}{:>10.2}{:>18.3}{:>10.2}", name, block, one, one / block, two, two / one);
    }
}

fn main() {
    let arguments: Vec<String> = std::env::args().skip(1).collect();
    if arguments.len() < 3 {
        fail("usage: bench ROOM RIVAL PROGRAM [ARGUMENT...]");
    }
    let programs = [&arguments[2..], &arguments[1..2]];
    let random = &mut Random(0x9e37_79b9_7f4a_7c15);
    let path = arguments[0].clone() + "/blocks";
    write(&path, b"").unwrap_or_else(|_| fail("no room"));
    let start = best(&programs, None, &path);
    let calls = Some(arguments[0].clone() + "/calls").filter(|calls| Path::new(calls).exists());
    let mut rows = Vec::new();
    let millis = |time: Duration| time.as_secs_f64() * 1e3;
    println!("Best of {} runs on {} blocks; cost per block without the start of the program.", ROUNDS, MOST_BLOCKS);
    println!("start: program {:.1} ms, rival {:.1} ms", millis(start[0]), millis(start[1]));
    println!("{:<12}{:>14}{:>14}{:>18}{:>18}{:>10}", "ships", "program ms", "rival ms", "program us/block", "rival us/block", "ratio");
    for name in ["declared", "trial", "statistical", "mixed", "coasters", "new ships"].iter() {
        let bytes: Vec<u8> = fleet_of(random, name).iter().flat_map(|block| block.iter().cloned()).collect();
        write(&path, &bytes).unwrap_or_else(|_| fail("no room for 32 MiB"));
        let texts: Vec<String> = programs.iter().map(|program| hold_lines(program, &path, &bytes)).collect();
        let times = best(&programs, calls.as_ref().map(|calls| (&calls[..], sums(&texts[0]))), &path);
        let cost: Vec<f64> = (0..2).map(|who| 1e3 * (millis(times[who]) - millis(start[who])) / MOST_BLOCKS as f64).collect();
        println!("{:<12}{:>14.1}{:>14.1}{:>18.3}{:>18.3}{:>10.1}", name, millis(times[0]), millis(times[1]), cost[0], cost[1], cost[0] / cost[1]);
        let call = |way: usize| 1e3 * millis(times[2 + way]) / MOST_BLOCKS as f64;
        rows.push((*name, [cost[0], call(0), call(1)]));
    }
    if calls.is_some() {
        print_calls(&rows);
    }
}
