// Holds printed lines of `speeds` to the reference, and shows beforehand that wrong lines are caught.
use desk::{push_speed_line, Speed, SpeedAnswer, DOUBLE_ERROR};
use hold::{line_faults, moved, unnoticed, Slip};

// The bounds may be apart by a millionth of the upper one, plus 2.
pub fn is_close(lower: u64, upper: u64) -> bool {
    (upper as u128).saturating_sub(lower as u128) * 1_000_000 <= upper as u128 + 2_000_000
}

fn near(lower: u64, upper: u64, speed: f64) -> Result<(), String> {
    let fault = if lower > upper {
        "lower bound above the upper one"
    } else if lower as f64 > speed * (1.0 + DOUBLE_ERROR) {
        "lower bound above the speed"
    } else if (upper as f64) < speed * (1.0 - DOUBLE_ERROR) {
        "upper bound below the speed"
    } else if !is_close(lower, upper) {
        "bounds too far apart"
    } else {
        return Ok(());
    };
    Err(format!("{}; the speed is {}", fault, speed))
}

fn line(number: usize, answer: SpeedAnswer) -> String {
    let mut text = Vec::new();
    push_speed_line(&mut text, number, answer);
    text.pop();
    String::from_utf8(text).unwrap()
}

// Whether this is the line for block `number`, or what is wrong with it.
pub fn verdict(number: usize, answer: SpeedAnswer, printed: &str) -> Result<(), String> {
    let (imo, speed) = match answer {
        // Only a declared speed has ranges beside it: any other is that of the most and of the least favourable ship.
        SpeedAnswer::Speeds { imo, most: Speed::Near(speed), .. } => (imo, speed),
        _ if printed == line(number, answer) => return Ok(()),
        _ => return Err(format!("should be '{}'", line(number, answer))),
    };
    let words: Vec<u64> = printed.split(' ').filter_map(|word| word.parse().ok()).collect();
    // Written again it must be the same line, with the same pair twice: no other spaces, signs or zeros.
    match words[..] {
        [_, _, lower, upper, _, _] if printed == format!("{} {} {} {} {} {}", number, imo, lower, upper, lower, upper) => {
            near(lower, upper, speed)
        }
        _ => Err(format!("should begin with '{} {}' and give the same two bounds twice", number, imo)),
    }
}

// All that is wrong with a whole output.
pub fn faults(answers: &[SpeedAnswer], text: &str) -> Vec<String> {
    line_faults(answers, text, verdict)
}

// Every figure of a line moved by one, to either side.
fn moves(at: usize, line: &str) -> Vec<Slip> {
    let names = ["the first figure moved", "the second figure moved", "the third figure moved", "the fourth figure moved"];
    let of = |place: usize, by: i64| (names[place], at, moved(line, 2 + place, by));
    (0..4).flat_map(|place| vec![of(place, -1), of(place, 1)]).collect()
}

// Lines that are wrong whatever the speed is.
fn shapes(at: usize, line: &str) -> Vec<Slip> {
    let words: Vec<&str> = line.split(' ').collect();
    vec![
        ("another IMO number", at, moved(line, 1, 1)),
        ("another block number", at, moved(line, 0, 1)),
        ("no figure", at, words[..2].join(" ")),
        ("one pair", at, words[..4].join(" ")),
        ("three figures", at, words[..5].join(" ")),
        ("five figures", at, format!("{} {}", line, words[5])),
        ("no IMO number", at, [&words[..1], &words[2..]].concat().join(" ")),
        ("two spaces", at, line.replacen(' ', "  ", 1)),
        ("a space at the end", at, format!("{} ", line)),
        ("a return at the end", at, format!("{}\r", line)),
        ("a leading zero", at, line.replacen(' ', " 0", 3)),
        ("a sign", at, line.replacen(' ', " +", 3)),
        ("refused, but right", at, format!("{} refused 13", words[0])),
        ("refused by 0", at, format!("{} refused 0", words[0])),
        ("zero and a large number", at, format!("{} {} 0 {} 0 {}", words[0], words[1], u64::MAX, u64::MAX)),
    ]
}

// S at 14.00 knots, and with a range from 13.50.
fn recorded_slips() -> Vec<Slip> {
    let of = |name: &'static str, at: usize, figures: &str| (name, at, format!("{} 9074729 {}", at, figures));
    vec![
        of("an enclosure of a recorded speed", 0, "13999999 14000001 13999999 14000001"),
        of("upper bounds one more", 0, "14000000 14000001 14000000 14000001"),
        of("hundredths of a knot", 0, "1400 1400 1400 1400"),
        of("thousandths of a knot", 0, "14000 14000 14000 14000"),
        of("knots with a point", 0, "14.000000 14.000000 14.000000 14.000000"),
        of("the index in place of the speed", 0, "5170857 5170858 5170857 5170858"),
        of("the index behind the speed", 0, "14000000 14000000 5170857 5170858"),
        of("the line of fleet", 0, "5170857 5170858"),
        of("pairs exchanged", 1, "13500000 13500000 14000000 14000000"),
        of("one pair from the low to the high speed, twice", 1, "13500000 14000000 13500000 14000000"),
        of("lower bounds first", 1, "14000000 13500000 14000000 13500000"),
        of("the high speed for both ships", 1, "14000000 14000000 14000000 14000000"),
        of("the low speed for both ships", 1, "13500000 13500000 13500000 13500000"),
        of("the middle of the range", 1, "13750000 13750000 13750000 13750000"),
        ("a range refused", 1, "1 refused 14".to_string()),
    ]
}

// S on a trial at half her P_ME: 14 times the cube root of 2 is 17.638894.. knots, and her index 4.104112.. g.
fn near_slips() -> Vec<Slip> {
    let of = |name: &'static str, figures: &str| (name, 2, format!("2 9074729 {}", figures));
    vec![
        of("lower and upper bounds exchanged", "17638895 17638894 17638895 17638894"),
        of("bounds of the first pair exchanged", "17638895 17638894 17638894 17638895"),
        of("bounds of the second pair exchanged", "17638894 17638895 17638895 17638894"),
        of("both lower bounds above the speed", "17638895 17638896 17638895 17638896"),
        of("both upper bounds below the speed", "17638893 17638894 17638893 17638894"),
        of("the nearest number for all four", "17638895 17638895 17638895 17638895"),
        of("both upper bounds too high", "17638894 17638914 17638894 17638914"),
        of("both lower bounds too low", "17638875 17638895 17638875 17638895"),
        of("the first pair wider", "17638893 17638895 17638894 17638895"),
        of("the second pair wider", "17638894 17638895 17638894 17638896"),
        of("the trial's speed", "14000000 14000000 14000000 14000000"),
        of("the index in place of an enclosed speed", "4104112 4104113 4104112 4104113"),
        of("the line of fleet for an enclosed speed", "4104112 4104113"),
    ]
}

fn refusal_slips() -> Vec<Slip> {
    vec![
        ("another refusal", 3, "3 refused 3".to_string()),
        ("no refusal's number", 3, "3 refused".to_string()),
        ("a refusal with more words", 3, "3 refused 2 0 0 0 0".to_string()),
        ("zeros for a refusal", 3, "3 0 0 0 0 0".to_string()),
        ("speeds, but refused", 3, "3 9074729 14000000 14000000 14000000 14000000".to_string()),
    ]
}

// How many slips there are, and the names of those that were not caught. `answers` are those to ship S, to S with a range of speed, to S on
// a trial at half her P_ME and to 512 zero bytes. Bounds as far apart as they may be are no slip.
pub fn uncaught(answers: &[SpeedAnswer]) -> (usize, Vec<&'static str>) {
    let lines: Vec<String> = answers.iter().enumerate().map(|(number, answer)| line(number, *answer)).collect();
    let mut slips: Vec<Slip> = (0..3).flat_map(|at| [moves(at, &lines[at]), shapes(at, &lines[at])].concat()).collect();
    for more in vec![recorded_slips(), near_slips(), refusal_slips()] {
        slips.extend(more);
    }
    let (count, mut missed) = unnoticed(&lines, slips, &|text| faults(answers, text));
    for widest in &["2 9074729 17638894 17638913 17638894 17638913", "2 9074729 17638876 17638895 17638876 17638895"] {
        if verdict(2, answers[2], widest).is_err() {
            missed.push("bounds as far apart as they may be, which were found wrong");
        }
    }
    (count, missed)
}
