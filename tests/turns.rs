// Ships at the turns of the speed itself: declared speeds at the ends of their field and next to each other, and trials whose powers are
// to each other as cubes of whole numbers. What the speed is follows from how each is made, and not from the reference.
use ships::*;

// The speed of the most and of the least favourable ship in millionths of a knot, or the refusal.
pub type Declared = (Block, Result<[u64; 2], u8>);

// A low and a high end, each at either end of the field, beside it or between; by an EEXI or an EEDI, with a range of rated power or
// without. Where the ends are in the field, rule 14 wants them in order, and of a general cargo ship the same.
pub fn at_declared_ends(random: &mut Random) -> Vec<Declared> {
    let ends = [0, 499, 500, 501, 999, 1_000, 1_001, 5_999, 6_000, 6_001, 0x0100_0000];
    let mut all = Vec::new();
    for (low, high) in ends.iter().flat_map(|low| ends.iter().map(move |high| (*low, *high))) {
        for (kind, edition) in (1..9).flat_map(|kind| (0..3).map(move |edition| (kind, edition))) {
            let mut block = draw_new(random, kind, edition, random.0 & 1 == 0);
            put(&mut block, SPEED[0], low);
            put(&mut block, SPEED[1], high);
            let inside = |end: u64| (500..=6_000).contains(&end);
            let answer = match (inside(low) && inside(high), low > high || kind == 8 && low != high) {
                (false, _) => Err(13),
                (_, true) => Err(14),
                _ => Ok([10_000 * high, 10_000 * low]),
            };
            all.push((sealed(block), answer));
        }
    }
    all
}

// Speeds that are to V_S as these whole numbers; their cubes are between a fifth and five times of each other.
const RATIOS: [(u64, u64); 16] = [
    (3, 2), (2, 3), (4, 3), (3, 4), (5, 3), (3, 5), (5, 4), (4, 5), (6, 5), (5, 6), (8, 5), (5, 8), (9, 8), (10, 11), (11, 10), (17, 10),
];

// The ship on trial at so many kilowatts with one engine, whose P_ME is three quarters of its MCR; at design draught at Capacity, with a
// deadweight at which k is 1.
fn with_powers(random: &mut Random, kind: u64, method: u64, mcr_kilowatts: u64, trial: u64) -> Block {
    let mut ship = draw(random, kind, method, random.0 & 1 == 0);
    put(&mut ship, ENGINES, 1);
    ship[72..132].iter_mut().for_each(|byte| *byte = 0);
    put_both(&mut ship, mcr(0), mcr_kilowatts);
    put(&mut ship, limit(0), 0);
    let deadweight = random.from(200_001, 600_000);
    if method == 3 {
        put(&mut ship, DEADWEIGHT, deadweight);
    }
    trial_at(ship, trial, if method == 3 { deadweight } else { 0 })
}

// With each her speed as a fraction, over and under, in millionths of a knot; beside them the trials a kilowatt to either side.
pub fn at_cubes(random: &mut Random, beside: &mut Vec<Block>) -> Vec<(Block, (u64, u64))> {
    let mut all = Vec::new();
    let kinds: Vec<(u64, u64)> = kinds().into_iter().filter(|kind| kind.1 == 2 || *kind == (1, 3) || *kind == (3, 3)).collect();
    for ((kind, method), (over, under)) in kinds.iter().flat_map(|kind| RATIOS.iter().map(move |ratio| (*kind, *ratio))) {
        for _ in 0..8 {
            let (cube, other) = (over.pow(3), under.pow(3));
            let times = random.any_size(25 / cube + 1, 30_000 / cube);
            let block = with_powers(random, kind, method, 4 * cube * times, 3 * other * times);
            all.push((block, (10_000 * get(&block, SPEED[0]) * over, under)));
            for power in [3 * other * times - 1, 3 * other * times + 1].iter() {
                beside.push(trial_at(block, *power, get(&block, TRIAL_DEADWEIGHT)));
            }
        }
    }
    all
}
