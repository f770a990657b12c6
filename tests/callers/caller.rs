// The library called from Rust: for every piece of a file it holds the seven calls to each other and to the promises of the C header,
// and prints the line that `fleet` prints for such a block, then the one that `speeds` prints.
//   caller FILE   pieces one after another, each its length in four bytes, the lowest first, and then so many bytes
//   caller        prints size and alignment of each struct and the places of its parts
use std::io::Write;
use std::mem::{align_of, size_of, zeroed};
use std::process::exit;

#[repr(C)]
#[derive(Clone, Copy)]
struct Pair {
    lower: f64,
    upper: f64,
}

#[repr(C)]
#[derive(Clone, Copy)]
struct Answer {
    refusal: u8,
    lower: u64,
    upper: u64,
    pair: Pair,
}

#[repr(C)]
#[derive(Clone, Copy, PartialEq)]
struct Knots {
    lower: u64,
    upper: u64,
}

#[repr(C)]
#[derive(Clone, Copy, PartialEq)]
struct Speed {
    refusal: u8,
    most: Knots,
    least: Knots,
}

#[link(name = "hull", kind = "static")]
extern "C" {
    fn yagmurzol_ask(block: *const u8, length: usize) -> Answer;
    fn yagmurzol_refusal(block: *const u8, length: usize) -> u8;
    fn yagmurzol_lower(block: *const u8, length: usize) -> u64;
    fn yagmurzol_upper(block: *const u8, length: usize) -> u64;
    fn yagmurzol_doubles(block: *const u8, length: usize) -> Pair;
    fn yagmurzol_speeds(block: *const u8, length: usize) -> Speed;
    fn yagmurzol_index(block: *const u8, length: usize, most: Knots, least: Knots) -> Answer;
}

// What the library says of a piece: its index and its speed.
struct Answers {
    index: Answer,
    speed: Speed,
}

// A ship to be asked about in between.
struct Other {
    block: Vec<u8>,
    speed: Speed,
}

impl Pair {
    fn bits(&self) -> [u64; 2] {
        [self.lower.to_bits(), self.upper.to_bits()]
    }
}

impl Answer {
    // All parts, the doubles bit for bit.
    fn parts(&self) -> (u8, u64, u64, [u64; 2]) {
        (self.refusal, self.lower, self.upper, self.pair.bits())
    }
}

impl Speed {
    // The most favourable ship's lower and upper bound, then the least favourable's.
    fn figures(&self) -> [u64; 4] {
        [self.most.lower, self.most.upper, self.least.lower, self.least.upper]
    }
}

fn same(one: &Answers, other: &Answers) -> bool {
    one.index.parts() == other.index.parts() && one.speed == other.speed
}

fn hold(kept: bool, promise: &str) -> Result<(), String> {
    if kept { Ok(()) } else { Err(promise.to_string()) }
}

fn hold_promises(answer: &Answer, length: usize) -> Result<(), String> {
    hold((answer.refusal == 1) == (length != 512), "refusal 1 goes with every length but 512")?;
    hold((answer.refusal == 0) == (answer.upper > 0), "there are bounds exactly where there is no refusal")?;
    hold(answer.refusal == 0 || answer.lower == 0, "no lower bound goes with a refusal")?;
    hold(answer.lower <= answer.upper, "the lower bound is at most the upper one")?;
    hold(answer.upper < 1 << 53, "the bounds are below 2 to the 53rd")?;
    for (double, whole) in &[(answer.pair.lower, answer.lower), (answer.pair.upper, answer.upper)] {
        hold(*double as u64 == *whole, "a double is the whole bound")?;
        hold((*whole as f64).to_bits() == double.to_bits(), "a double is the whole bound bit for bit")?;
    }
    Ok(())
}

fn hold_speed(speed: &Speed, answer: &Answer) -> Result<(), String> {
    hold(speed.refusal == answer.refusal, "yagmurzol_speeds gives the answer's refusal")?;
    for knots in &[speed.most, speed.least] {
        hold((speed.refusal == 0) == (knots.upper > 0), "there is a speed exactly where there is no refusal")?;
        hold(knots.lower <= knots.upper, "a speed's lower bound is at most its upper one")?;
        hold(knots.upper < 1 << 53, "a speed's bounds are below 2 to the 53rd")?;
        hold(knots.upper - knots.lower <= knots.upper / 1_000_000 + 2, "a speed's bounds are a millionth and 2 apart, or less")?;
    }
    Ok(())
}

fn index_from(block: *const u8, length: usize, speed: [u64; 4]) -> Answer {
    let (most, least) = (Knots { lower: speed[0], upper: speed[1] }, Knots { lower: speed[2], upper: speed[3] });
    // Lent as to `ask_at`.
    unsafe { yagmurzol_index(block, length, most, least) }
}

// Each figure a little and far off, the ships exchanged, the bounds exchanged, another ship's, none, and the greatest.
fn others(own: [u64; 4], another: [u64; 4]) -> Vec<[u64; 4]> {
    let mut all = vec![[own[2], own[3], own[0], own[1]], [own[1], own[0], own[3], own[2]], another, [0; 4], [u64::MAX; 4]];
    for step in &[1, u64::MAX, 1 << 32] {
        for place in 0..4 {
            let mut moved = own;
            moved[place] = moved[place].wrapping_add(*step);
            all.push(moved);
        }
    }
    all
}

// After another ship's speed the ship's own still gives her index: nothing is kept from one call to the next. Pairs that aren't her own
// are refusal 13, after every refusal of the block itself. The first pieces have all of them, each later one a single one, in turn.
fn ask_with_others(piece: &[u8], number: usize, right: &Answers, another: &Other) -> Result<(), String> {
    let (own, refused) = (right.speed.figures(), (13, 0, 0, [0, 0]));
    let speed = unsafe { yagmurzol_speeds(another.block.as_ptr(), another.block.len()) };
    hold(speed == another.speed, "another ship's speed is what it was")?;
    let index = |speed: [u64; 4]| index_from(piece.as_ptr(), piece.len(), speed).parts();
    hold(index(own) == right.index.parts(), "another ship's speed in between changes no index")?;
    let all = others(own, another.speed.figures());
    let chosen = if number < 256 { &all[..] } else { &all[number % all.len()..][..1] };
    for speed in chosen.iter().cloned() {
        let answer = if right.index.refusal == 0 && speed != own { refused } else { right.index.parts() };
        hold(index(speed) == answer, "any other speed is refusal 13, after the block's own")?;
    }
    Ok(())
}

// All seven calls, and the first one again. A slice of no bytes lends an address at which there is no memory at all.
fn ask_at(block: *const u8, length: usize) -> Result<Answers, String> {
    // So many bytes can be read there: every caller below lends a slice, or no bytes.
    let (answer, again) = unsafe { (yagmurzol_ask(block, length), yagmurzol_ask(block, length)) };
    let (refusal, pair) = unsafe { (yagmurzol_refusal(block, length), yagmurzol_doubles(block, length)) };
    let (lower, upper) = unsafe { (yagmurzol_lower(block, length), yagmurzol_upper(block, length)) };
    hold_promises(&answer, length)?;
    hold((refusal, lower, upper, pair.bits()) == answer.parts(), "the four calls give the parts of the answer")?;
    hold(again.parts() == answer.parts(), "asked again it answers the same")?;
    let speed = unsafe { yagmurzol_speeds(block, length) };
    hold_speed(&speed, &answer)?;
    let later = index_from(block, length, speed.figures());
    hold(later.parts() == answer.parts(), "the index from the ship's own speed is the answer")?;
    Ok(Answers { index: answer, speed })
}

fn ask(piece: &[u8]) -> Result<Answers, String> {
    let copy = piece.to_vec();
    let answer = ask_at(piece.as_ptr(), piece.len())?;
    hold(piece == &copy[..], "the lent bytes are unchanged")?;
    if piece.is_empty() {
        hold(same(&ask_at(std::ptr::null(), 0)?, &answer), "the answer is the same of no bytes at a null pointer")?;
    }
    Ok(answer)
}

// Any single byte changed on the way is refusal 2, at the same address too; put right again, the answer is the old one.
fn ask_changed(piece: &mut [u8], place: usize, right: &Answers) -> Result<(), String> {
    if piece.len() != 512 || right.index.refusal == 2 {
        return Ok(());
    }
    piece[place] ^= 1;
    hold(ask(piece)?.index.refusal == 2, "a changed byte is refusal 2")?;
    piece[place] ^= 1;
    hold(same(&ask(piece)?, right), "the byte put right, the answer is the old one")
}

// The lines of `fleet` and of `speeds`. A ship is the other one of the next.
fn lines(piece: &mut [u8], number: usize, another: &mut Other) -> Result<String, String> {
    let answer = ask(piece)?;
    ask_with_others(piece, number, &answer, another)?;
    ask_changed(piece, number % 512, &answer)?;
    let (index, speed) = (answer.index, answer.speed);
    if index.refusal != 0 {
        return Ok(format!("{} refused {}\n{} refused {}\n", number, index.refusal, number, speed.refusal));
    }
    *another = Other { block: piece.to_vec(), speed };
    let imo = u32::from_le_bytes([piece[4], piece[5], piece[6], piece[7]]);
    let [most, more, least, last] = speed.figures();
    let first = format!("{} {} {} {}\n", number, imo, index.lower, index.upper);
    Ok(format!("{}{} {} {} {} {} {}\n", first, number, imo, most, more, least, last))
}

fn print_lines(path: &str) -> Result<(), String> {
    let bytes = std::fs::read(path).map_err(|why| why.to_string())?;
    let (mut rest, mut number, mut text) = (&bytes[..], 0, String::new());
    // A block of zeros is refused by its check sums.
    let none = Knots { lower: 0, upper: 0 };
    let mut another = Other { block: vec![0; 512], speed: Speed { refusal: 2, most: none, least: none } };
    while rest.len() >= 4 {
        let length = u32::from_le_bytes([rest[0], rest[1], rest[2], rest[3]]) as usize;
        let mut piece = rest[4..4 + length].to_vec();
        text += &lines(&mut piece, number, &mut another).map_err(|why| format!("piece {}: {}", number, why))?;
        rest = &rest[4 + length..];
        number += 1;
    }
    std::io::stdout().write_all(text.as_bytes()).map_err(|why| why.to_string())
}

// Where a part stands in its struct.
fn place<T, P>(whole: &T, part: &P) -> usize {
    part as *const P as usize - whole as *const T as usize
}

fn print_shape<T>(name: &str, parts: &[usize]) {
    let places: Vec<String> = parts.iter().map(|part| part.to_string()).collect();
    println!("{} {} by {}: {}", name, size_of::<T>(), align_of::<T>(), places.join(" "));
}

fn print_shapes() {
    let (answer, speed): (Answer, Speed) = unsafe { (zeroed(), zeroed()) };
    let (pair, knots) = (&answer.pair, &speed.most);
    let parts = [place(&answer, &answer.refusal), place(&answer, &answer.lower), place(&answer, &answer.upper), place(&answer, pair)];
    print_shape::<Answer>("answer", &parts);
    print_shape::<Pair>("pair", &[place(pair, &pair.lower), place(pair, &pair.upper)]);
    print_shape::<Speed>("speed_answer", &[place(&speed, &speed.refusal), place(&speed, knots), place(&speed, &speed.least)]);
    print_shape::<Knots>("knots", &[place(knots, &knots.lower), place(knots, &knots.upper)]);
}

fn main() {
    match std::env::args().nth(1) {
        None => print_shapes(),
        Some(path) => {
            if let Err(why) = print_lines(&path) {
                eprintln!("{}", why);
                exit(1);
            }
        }
    }
}
