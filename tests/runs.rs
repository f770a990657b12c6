// A program that prints a line for each block, run on whole files. Who asks holds the lines; what is the same of every such program is
// held here.
#![allow(dead_code)]
use desk::{self, BLOCK, MOST_BLOCKS};
use program;
use ships::*;
use std::process::exit;
use std::thread::spawn;
use suite::SEED;

// What is wrong with the text that was printed for these bytes.
pub type Faults<'a> = &'a mut dyn FnMut(&[u8], &str) -> Vec<String>;

pub struct Tested {
    pub name: &'static str,
    pub program: Vec<String>,
}

enum How {
    Pipe,
    OddPieces,
    OpenPipe,
    File,
}

pub fn bytes_of(blocks: &[Block]) -> Vec<u8> {
    blocks.iter().flat_map(|block| block.iter().cloned()).collect()
}

// So many accepted ships of each of these kinds for which that holds.
pub fn accepted(all: &[Block], kinds: Vec<(u64, u64)>, fits: fn(&desk::Ship) -> bool, each: usize) -> Vec<Block> {
    let of = |kind: (u64, u64)| {
        let right = move |block: &&Block| desk::read(&block[..]).map_or(false, |ship| fits(&ship));
        all.iter().filter(move |block| (get(block, TYPE), get(block, METHOD)) == kind).filter(right).take(each)
    };
    kinds.into_iter().flat_map(of).cloned().collect()
}

// So many new ships of each type for which that holds.
pub fn new_ships(all: &[Block], fits: fn(&desk::Ship) -> bool, each: usize) -> Vec<Block> {
    accepted(all, (1..9).map(|kind| (kind, 1)).collect(), fits, each)
}

// What is wrong with its lines for a last piece of each of these lengths, alone or after ship S.
fn tail_faults(program: &[String], lengths: Vec<usize>, after_s: &str) -> Vec<String> {
    let mut wrong = Vec::new();
    for length in lengths {
        let alone = length / 2 % 2 == 0;
        let mut bytes = if alone { Vec::new() } else { ship_s().to_vec() };
        bytes.extend(&ship_s()[..length]);
        let right = if alone { "0 refused 1\n" } else { after_s };
        match program::by_pipe(program, &bytes, None).whole() {
            Ok(ref text) if text == right => {}
            Ok(text) => wrong.push(format!("a tail of {} bytes printed {}", length, text)),
            Err(why) => wrong.push(format!("a tail of {} bytes: {}", length, why)),
        }
    }
    wrong
}

impl Tested {
    // The program named by the test's own arguments.
    pub fn named(name: &'static str) -> Tested {
        let tested = Tested { name, program: std::env::args().skip(1).collect() };
        if tested.program.is_empty() {
            tested.fail(&format!("usage: {} PROGRAM [ARGUMENT...]", name));
        }
        tested
    }
    pub fn fail(&self, why: &str) -> ! {
        eprintln!("{}: {}", self.name, why);
        exit(1)
    }
    pub fn or_fail<T>(&self, what: &str, result: Result<T, String>) -> T {
        result.unwrap_or_else(|why| self.fail(&format!("{}: {}", what, why)))
    }
    // What it prints, by pipe.
    pub fn text(&self, what: &str, bytes: &[u8]) -> String {
        self.or_fail(what, program::by_pipe(&self.program, bytes, None).whole())
    }
    pub fn prints(&self, what: &str, bytes: &[u8], right: &str) {
        let text = self.text(what, bytes);
        if text != right {
            self.fail(&format!("{} should be\n{}but printed\n{}", what, right, text));
        }
    }
    // Blocks with the words of their lines, and behind them a block that lacks its last byte.
    pub fn prints_words(&self, what: &str, blocks: &[(Block, &str)]) {
        let mut bytes: Vec<u8> = blocks.iter().flat_map(|(block, _)| block.to_vec()).collect();
        bytes.extend(&ship_s()[..511]);
        let mut right: String = blocks.iter().enumerate().map(|(number, (_, words))| format!("{} {}\n", number, words)).collect();
        right += &format!("{} refused 1\n", blocks.len());
        self.prints(what, &bytes, &right);
    }
    // Runs the program on one input and reports what is wrong; the lines are kept without their block number.
    fn run(&self, name: &str, bytes: &[u8], how: How, faults: Faults) -> (Vec<String>, usize) {
        let read = &bytes[..bytes.len().min(MOST_BLOCKS * BLOCK)];
        let ran = match how {
            How::Pipe => program::by_pipe(&self.program, bytes, None),
            How::OddPieces => program::by_pipe(&self.program, bytes, Some(Random(SEED))),
            How::OpenPipe => program::by_open_pipe(&self.program, bytes),
            How::File => {
                let (ran, place) = program::by_file(&self.program, bytes);
                if place != read.len() as u64 {
                    self.fail(&format!("{}: {} bytes of the file were read, not {}", name, place, read.len()));
                }
                ran
            }
        };
        let text = self.or_fail(name, ran.whole());
        let wrong = faults(read, &text);
        wrong.iter().take(10).for_each(|why| eprintln!("{}: {}: {}", self.name, name, why));
        (text.lines().map(|line| line.splitn(2, ' ').nth(1).unwrap_or("").to_string()).collect(), wrong.len())
    }
    // All blocks, each once. Where more than 65,536 are offered, the rest must not be read, and its end not awaited.
    pub fn all_lines(&self, all: &[Block], faults: Faults) -> (Vec<String>, usize) {
        let mut bytes = bytes_of(all);
        bytes.extend(&ship_s()[..300]);
        let most = MOST_BLOCKS * BLOCK;
        let (mut lines, mut wrong) = self.run("a file with too many blocks", &bytes[..most + 3 * BLOCK + 100], How::File, faults);
        // The sample was written by another hand than these blocks; the test runs in the repository's root.
        let sample = std::fs::read("sample/fleet.blocks").unwrap_or_else(|_| self.fail("sample/fleet.blocks cannot be read from here"));
        let mut inputs = vec![("a pipe with too many blocks that stays open", &bytes[most..2 * most + 70_000], How::OpenPipe)];
        inputs.extend(bytes[2 * most..].chunks(most).map(|part| ("a pipe", part, How::Pipe)));
        inputs.push(("the sample", &sample[..], How::File));
        for (name, input, how) in inputs {
            let (more, faulty) = self.run(name, input, how, faults);
            lines.extend(more);
            wrong += faulty;
        }
        (lines, wrong)
    }
    // The same blocks at other numbers, beside other blocks and in odd pieces: the same words behind the number.
    pub fn same_elsewhere(&self, all: &[Block], lines: &[String], faults: Faults) -> usize {
        let mut wrong = 0;
        let some = 6_000.min(all.len());
        let mut turned = all[..some].to_vec();
        turned.reverse();
        for (name, blocks, how) in vec![("odd pieces", all[..some].to_vec(), How::OddPieces), ("reversed", turned, How::Pipe)] {
            let (mut again, faulty) = self.run(name, &bytes_of(&blocks), how, faults);
            if name == "reversed" {
                again.reverse();
            }
            if again[..] != lines[..some] {
                self.fail(&format!("{}: a block was answered otherwise than before", name));
            }
            wrong += faulty;
        }
        wrong
    }
    // With each of these numbers in that field the same ship gets the very same words.
    pub fn same_words(&self, name: &str, ships: &[Block], field: Field, numbers: &[u64], faults: Faults) -> usize {
        let mut lines_with = |number: u64| {
            let mut blocks = ships.to_vec();
            blocks.iter_mut().for_each(|block| { put(block, field, number); seal(block) });
            self.run(&format!("{} {}", name, number), &bytes_of(&blocks), How::Pipe, faults)
        };
        let (right, mut wrong) = lines_with(numbers[0]);
        for number in &numbers[1..] {
            let (lines, faulty) = lines_with(*number);
            if let Some((right, line)) = right.iter().zip(&lines).find(|(right, line)| right != line) {
                self.fail(&format!("in {} {} a ship is answered '{}', in {} '{}'", name, number, line, numbers[0], right));
            }
            wrong += faulty;
        }
        wrong
    }
    // A trial at rated power gets the very words of the same ship when she declares the trial's speed, light cargo and general cargo
    // ships too: README promises it of every type.
    pub fn same_declared(&self, all: &[Block], faults: Faults) -> usize {
        let mut kinds: Vec<(u64, u64)> = older_kinds().into_iter().filter(|(_, method)| *method == 2 || *method == 3).collect();
        kinds.push((8, 2));
        let mut ships = accepted(all, kinds, desk::Ship::is_at_rated_power, 300);
        let (lines, wrong) = self.run("at rated power", &bytes_of(&ships), How::Pipe, faults);
        for ship in ships.iter_mut() {
            [(METHOD, 1), (TRIAL_POWER, 0), (TRIAL_DEADWEIGHT, 0)].iter().for_each(|(field, value)| put(ship, *field, *value));
            seal(ship);
        }
        let (declared, more) = self.run("declared", &bytes_of(&ships), How::Pipe, faults);
        if let Some((line, right)) = lines.iter().zip(&declared).find(|(line, right)| line != right) {
            self.fail(&format!("on trial at rated power a ship is answered '{}', declared '{}'", line, right));
        }
        wrong + more
    }
    // Last pieces of 1 to 511 bytes, in steps of `every`, some of them behind ship S with these words; two runs at a time. How many there
    // are, and how many are answered wrongly.
    pub fn tails(&self, every: usize, words_of_s: &str) -> (u64, usize) {
        let lengths: Vec<usize> = (1..BLOCK).step_by(every).collect();
        let part = |parity: usize| {
            let some = lengths.iter().cloned().filter(|length| length % 2 == parity).collect();
            let (program, after_s) = (self.program.clone(), format!("0 {}\n1 refused 1\n", words_of_s));
            spawn(move || tail_faults(&program, some, &after_s))
        };
        let (even, odd) = (part(0), part(1));
        let mut wrong = even.join().unwrap();
        wrong.extend(odd.join().unwrap());
        wrong.iter().take(10).for_each(|why| eprintln!("{}: {}", self.name, why));
        (lengths.len() as u64, wrong.len())
    }
    // When the reader of its lines leaves, the program ends without a word, whether or not the signal for it is ignored.
    pub fn reader_gone(&self, all: &[Block]) {
        let bytes = bytes_of(&all[..20_000]);
        let mut deaf: Vec<String> = ["sh", "-c", "trap '' PIPE; exec \"$@\"", "sh"].iter().map(|word| word.to_string()).collect();
        deaf.extend(self.program.iter().cloned());
        for command in &[self.program.clone(), deaf] {
            for after in [0, 100].iter() {
                self.or_fail("a reader that leaves", program::with_reader_gone(command, &bytes, *after).quiet());
            }
        }
    }
}
