// Holds printed lines to the reference, and shows beforehand that wrong lines are caught.
#![allow(dead_code)]
use desk::{push_line, Answer, DOUBLE_ERROR};
use ships::Block;

// The bounds may be apart by a hundred-thousandth of the upper one, plus 2. So far, then, may either be from the index:
// an upper bound at most 2 above the index and a hundred-thousandth of itself is (index + 2) / 0.99999.
fn room(index: f64) -> f64 {
    (index + 2.0) / 99_999.0 + 2.0
}

fn near(lower: u64, upper: u64, favourable: f64, least: f64, ranged: bool) -> Result<(), String> {
    let (low, high) = (lower as f64, upper as f64);
    let apart = (upper as u128).saturating_sub(lower as u128) * 100_000;
    let fault = if lower > upper {
        "lower bound above the upper one"
    } else if low > favourable * (1.0 + DOUBLE_ERROR) {
        "lower bound above the index of the most favourable ship"
    } else if high < least * (1.0 - DOUBLE_ERROR) {
        "upper bound below the index of the least favourable ship"
    } else if !ranged && apart > upper as u128 + 200_000 {
        "bounds too far apart"
    } else if low < favourable * (1.0 - DOUBLE_ERROR) - room(favourable) {
        "lower bound too low"
    } else if high > least * (1.0 + DOUBLE_ERROR) + room(least) {
        "upper bound too high"
    } else {
        return Ok(());
    };
    Err(format!("{}; indexes are {} and {}", fault, favourable, least))
}

fn line(number: usize, answer: Answer) -> String {
    let mut text = Vec::new();
    push_line(&mut text, number, answer);
    text.pop();
    String::from_utf8(text).unwrap()
}

// Whether this is the line for block `number`, or what is wrong with it.
pub fn verdict(number: usize, answer: Answer, printed: &str) -> Result<(), String> {
    let (imo, favourable, least, ranged) = match answer {
        Answer::Near { imo, favourable, least, ranged } => (imo, favourable, least, ranged),
        _ if printed == line(number, answer) => return Ok(()),
        _ => return Err(format!("should be '{}'", line(number, answer))),
    };
    let words: Vec<u64> = printed.split(' ').filter_map(|word| word.parse().ok()).collect();
    // Written again it must be the same line: no other spaces, signs or zeros.
    match words[..] {
        [n, i, lower, upper] if format!("{} {} {} {}", n, i, lower, upper) == printed && n as usize == number && i == imo as u64 => {
            near(lower, upper, favourable, least, ranged)
        }
        _ => Err(format!("should begin with '{} {}' and give two bounds", number, imo)),
    }
}

// All that is wrong with a whole output.
pub fn faults(answers: &[Answer], text: &str) -> Vec<String> {
    line_faults(answers, text, verdict)
}

// The same of any program that prints a line for each block, by the verdict on one line.
pub fn line_faults<A: Copy>(answers: &[A], text: &str, verdict: fn(usize, A, &str) -> Result<(), String>) -> Vec<String> {
    let mut lines: Vec<&str> = text.split('\n').collect();
    let mut wrong = Vec::new();
    if lines.pop() != Some("") {
        wrong.push("the last line has no end".to_string());
    }
    if lines.len() != answers.len() {
        wrong.push(format!("{} lines for {} blocks", lines.len(), answers.len()));
    }
    for (number, (answer, printed)) in answers.iter().zip(&lines).enumerate() {
        if let Err(why) = verdict(number, *answer, printed) {
            wrong.push(format!("line '{}': {}", printed, why));
        }
    }
    wrong
}

// A line with one of its figures moved.
pub fn moved(line: &str, figure: usize, by: i64) -> String {
    let words: Vec<String> = line.split(' ').enumerate().map(|(at, word)| match word.parse::<i64>() {
        Ok(number) if at == figure => (number + by).to_string(),
        _ => word.to_string(),
    }).collect();
    words.join(" ")
}

// A slip in a single line: its name, which line, what that becomes.
pub type Slip = (&'static str, usize, String);

fn line_slips(lines: &[String]) -> Vec<Slip> {
    let (exact, near, ranged, refused) = (&lines[0], &lines[1], &lines[2], &lines[3]);
    let far = |line: &str, figure: usize| line.split(' ').nth(figure).unwrap().parse::<i64>().unwrap() / 50_000 + 3;
    vec![
        ("exact lower one less", 0, moved(exact, 2, -1)),
        ("exact lower one more", 0, moved(exact, 2, 1)),
        ("exact upper one less", 0, moved(exact, 3, -1)),
        ("exact upper one more", 0, moved(exact, 3, 1)),
        ("the 1.05 of IA for an IC ship", 0, "0 9074729 4924625 4924626".to_string()),
        ("another IMO number", 0, moved(exact, 1, 1)),
        ("another block number", 0, moved(exact, 0, 1)),
        ("two spaces", 0, exact.replacen(' ', "  ", 1)),
        ("a return at the end", 0, format!("{}\r", exact)),
        ("refused, but right", 0, "0 refused 2".to_string()),
        ("lower above the index", 1, moved(near, 2, 1)),
        ("upper below the index", 1, moved(near, 3, -1)),
        ("bounds too far apart", 1, moved(near, 3, far(near, 3))),
        ("lower much too low", 1, moved(near, 2, -far(near, 2))),
        ("a leading zero", 1, near.replacen(' ', " 0", 3)),
        ("another IMO number, not exact", 1, moved(near, 1, 1)),
        ("lower above the most favourable", 2, moved(ranged, 2, 1)),
        ("upper below the least favourable", 2, moved(ranged, 3, -1)),
        ("lower far from the most favourable", 2, moved(ranged, 2, -far(ranged, 2))),
        ("upper far from the least favourable", 2, moved(ranged, 3, far(ranged, 3))),
        ("another refusal", 3, moved(refused, 2, 1)),
        ("bounds, but refused", 3, "3 9074729 5170857 5170858".to_string()),
        ("refusal with more words", 3, format!("{} SFC", refused)),
    ]
}

fn joined(lines: &[String]) -> String {
    lines.iter().map(|line| line.clone() + "\n").collect()
}

// Slips in the whole output, whatever its lines are.
fn output_slips(lines: &[String]) -> Vec<(&'static str, String)> {
    let mut swapped = lines.to_vec();
    swapped.swap(1, 2);
    vec![
        ("a missing line", joined(&lines[1..])),
        ("the last line missing", joined(&lines[..lines.len() - 1])),
        ("one line too many", format!("{}{} refused 1\n", joined(lines), lines.len())),
        ("lines out of order", joined(&swapped)),
        ("an empty line", joined(lines) + "\n"),
        ("no end of the last line", joined(lines).trim_end().to_string()),
        ("nothing at all", String::new()),
    ]
}

// How many slips there are in these right lines, and the names of those in which no fault is found.
pub fn unnoticed(lines: &[String], slips: Vec<Slip>, faults: &dyn Fn(&str) -> Vec<String>) -> (usize, Vec<&'static str>) {
    let mut outputs = output_slips(lines);
    for (name, at, slip) in slips {
        let mut changed = lines.to_vec();
        changed[at] = slip;
        outputs.push((name, joined(&changed)));
    }
    let mut missed: Vec<&'static str> = outputs.iter().filter(|output| faults(&output.1).is_empty()).map(|output| output.0).collect();
    if !faults(&joined(lines)).is_empty() {
        missed.push("the right lines, which were found wrong");
    }
    (outputs.len(), missed)
}

// The names of the slips that were not caught; `answers` are an exact one, a near one, a ranged near one and a refusal.
// The exact one is ship S in ice class 2.
pub fn uncaught(answers: &[Answer]) -> (usize, Vec<&'static str>) {
    let lines: Vec<String> = answers.iter().enumerate().map(|(number, answer)| line(number, *answer)).collect();
    unnoticed(&lines, line_slips(&lines), &|text| faults(answers, text))
}

// A ship, the line that she must have, and those of desks that read a rule wrongly.
pub type Lines = (Block, String, Vec<(&'static str, String)>);

// How many wrong readings there are, and the names of those whose line passes.
pub fn misread(ships: &[Lines], verdict: &dyn Fn(&Block, &str) -> Result<(), String>) -> (usize, Vec<&'static str>) {
    let mut missed = Vec::new();
    for (block, right, wrong) in ships {
        if verdict(block, right).is_err() {
            missed.push("a right reading, which was found wrong");
        }
        missed.extend(wrong.iter().filter(|(_, line)| verdict(block, line).is_ok()).map(|(name, _)| *name));
    }
    (ships.iter().map(|(_, _, wrong)| wrong.len()).sum(), missed)
}
