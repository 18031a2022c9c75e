//! Balances by the digits worked: S and F such that S/F ends at a digit that is wanted, or does not end. F is set by hand in
//! runs in order, spread over its four kinds with rests, so that the printed total alone tells it.
use super::*;

const MOST_SOLD: u64 = 999_999_999;
/// The most grams that one kind can have.
const MOST_USED: u64 = 5_000_000_000_000_000;

#[derive(Default)]
pub struct Tried {
    /// Balances that were taken, by the digits worked; in the last place 12 where there is no end.
    pub taken: [u64; 14],
    pub refused: u64,
}

impl Tried {
    /// The taken ones in the order of their digits.
    pub fn text(&self) -> String {
        let by_digits: Vec<String> = (0..13).filter(|&n| self.taken[n] > 0).map(|n| format!("{n}: {}", self.taken[n])).collect();
        format!("{}, 12 without an end: {}; refused: {}", by_digits.join(", "), self.taken[13], self.refused)
    }
}

fn gcd(a: u64, b: u64) -> u64 {
    if b == 0 { a } else { gcd(b, a % b) }
}

const PRIMES: [u64; 14] = [
    2, 3, 5, 7, 666_667, 999_983, 1_000_003, 1_999_993, 999_999_937, 999_999_999_989, 666_666_666_666_719, 999_999_999_999_989,
    1_999_999_999_999_943, 2_000_001_999_999_989,
];

/// An S for this F, most of them with S/F from 0.45 to 1.55 millionths.
fn sold_for(r: &mut Random, used: u64) -> u64 {
    let (low, high) = ((used as u128 * 45 / 100_000_000) as u64, (used as u128 * 155 / 100_000_000) as u64 + 1);
    let sold = r.from_to(low, high);
    let nearest = (used + 500_000) / 1_000_000;
    match r.below(8) {
        // with a factor of F, so that the fraction is shorter
        0..=2 => {
            let factor = gcd(used, r.of(&[10u64.pow(4), 10u64.pow(7), 1 << 20, 5u64.pow(9)]));
            sold / factor * factor
        }
        3 => nearest,
        4 => r.of(&[nearest / 2, nearest / 2 + 1, nearest * 3 / 2, nearest * 3 / 2 + 1]),
        _ => sold,
    }
}

/// An S and an F.
fn pair(r: &mut Random) -> (u64, u64) {
    match r.below(10) {
        // an S/F that ends at digit n: so many parts of 10^n, in lowest terms or with a common factor
        0..=4 => {
            let n = r.from_to(6, 14) as u32;
            let whole = 10u64.pow(n);
            let (low, high) = (whole / 2_000_000, 3 * whole / 2_000_000);
            let parts = match r.below(8) {
                0 => r.of(&[low, high, low.saturating_sub(1), low + 1, high - 1, high + 1]),
                // ends at digit 6, 7 or 8 already
                1 => (whole / 10_000_000).max(1) * r.from_to(5, 15),
                2 => (whole / 100_000_000).max(1) * r.from_to(50, 150),
                _ => r.from_to(low, high),
            };
            let shared = gcd(parts, whole);
            let (parts, whole) = (parts / shared, whole / shared);
            let factor = r.scaled(1, (MOST_SOLD / parts.max(1)).min(MOST_USED / whole).max(1));
            (parts * factor, whole * factor)
        }
        // F of 2 and 5, and a small factor beside them
        5..=7 => loop {
            let (twos, fives) = (r.from_to(0, 30), r.from_to(0, 15));
            let other = r.of(&[1, 1, 1, 3, 7, 9, 11, 13, 99, 101, 999]);
            let used = (1u128 << twos) * 5u128.pow(fives as u32) * other;
            if (300_000..=2_100_000_000_000_000).contains(&used) {
                let mut sold = sold_for(r, used as u64);
                // now and then the small factor goes
                if r.one_in(2) {
                    sold = sold / other as u64 * other as u64;
                }
                return (sold, used as u64);
            }
        },
        8 => {
            let used = r.of(&PRIMES);
            (sold_for(r, used), used)
        }
        // S a multiple of F, or anything
        _ => match (r.below(3), r.scaled(1, MOST_SOLD), r.scaled(1, MOST_USED)) {
            (0, few, _) => (few * r.from_to(0, 3), few),
            (1, _, used) => (r.of(&[0, MOST_SOLD, MOST_SOLD + 1, u64::MAX]), used),
            (_, few, used) => (few, used),
        },
    }
}

/// Four sums whose printed total is F.
fn spread(r: &mut Random, used: u64) -> [plain::Sum; 4] {
    let billion = 1_000_000_000u128;
    // half up: from half a gram below to a billionth less than that above
    let least = (used as u128 * billion).saturating_sub(billion / 2);
    let most = used as u128 * billion + if used == MOST_USED { 0 } else { billion / 2 - 1 };
    let exact = match r.below(4) {
        0 => least,
        1 => most,
        2 => used as u128 * billion,
        _ => least + r.next() as u128 % (most - least + 1),
    };
    let mut cuts: [u128; 3] = std::array::from_fn(|_| match r.below(3) {
        0 => r.of(&[0, exact, exact / 4]),
        _ => (((r.next() as u128) << 64) | r.next() as u128) % (exact + 1),
    });
    cuts.sort();
    let parts = [cuts[0], cuts[1] - cuts[0], cuts[2] - cuts[1], exact - cuts[2]];
    parts.map(|part| plain::Sum { grams: (part / billion) as u64, rest: (part % billion) as u64 })
}

/// One balance both ways, counted by its digits.
fn ask(held: &mut Held, ours: c::Run, run: &plain::Run, fuel: u64, quantity: u64, sold: u64) {
    ask_balance(held, ours, run, fuel, quantity, sold);
    match run.balance(fuel, quantity, sold) {
        Ok((_, digits, _)) => {
            let ends = sold as u128 * 1_000_000_000_000 % run.total(fuel, 5).unwrap() as u128 == 0;
            held.digits.taken[if ends { digits as usize } else { 13 }] += 1;
        }
        Err(_) => held.digits.refused += 1,
    }
}

/// A run with an F of each fuel, and S for each: as it was wanted, twice, by any two quantities, and one more or one less.
fn ask_three(held: &mut Held, r: &mut Random, pairs: [(u64, u64); 3]) {
    let most = pairs.iter().map(|&(_, used)| used).max().unwrap();
    let least = (most / 1_000_000_000_000 + 1).min(5000);
    let count = r.of(&[least, 5000]);
    let mut run = random::run_of_count(r, count);
    for (sums, (_, used)) in run.sums.iter_mut().zip(pairs) {
        sums[4] = spread(r, used);
    }
    run.settle();
    assert!(run.in_order());
    let ours = c_run(&run);
    for (fuel, (sold, used)) in (1..).zip(pairs) {
        assert_eq!(run.total(fuel, 5), Ok(used));
        let (first, second) = (r.from_to(1, 5), r.from_to(1, 5));
        ask(held, ours, &run, fuel, first, sold);
        ask(held, ours, &run, fuel, second, sold);
        let other = if r.one_in(2) { sold.saturating_add(1) } else { sold.saturating_sub(1) };
        ask(held, ours, &run, fuel, first, other);
    }
}

pub fn digits(held: &mut Held, r: &mut Random, times: u64) {
    for _ in 0..times {
        let pairs = std::array::from_fn(|_| pair(r));
        ask_three(held, r, pairs);
    }
    // each digit, no end, and k at its limits, whatever the random ones gave
    for k in [500_000, 500_001, 500_010, 500_100, 501_000, 510_000, 600_000, 1_000_000, 1_499_999, 1_499_990, 1_500_000, 499_999, 1_500_001] {
        let exact = (k, 1_000_000_000_000);
        // a thirteenth digit, half a unit of k above and below
        let halves = [(20 * k + 10, 20_000_000_000_000), (20 * k - 10, 20_000_000_000_000)];
        ask_three(held, r, [exact, halves[0], halves[1]]);
        ask_three(held, r, [(k * 3, 3_000_000_000_000), (k * 625, 625_000_000_000_000), (k * 7 + 1, 7_000_000_000_000)]);
    }
    // S a multiple of F, and the largest of both
    ask_three(held, r, [(0, 1), (1, 1), (MOST_SOLD, 1)]);
    ask_three(held, r, [(MOST_SOLD, MOST_SOLD), (MOST_SOLD, MOST_SOLD * 1_000_000), (MOST_SOLD, MOST_SOLD * 2_000_000)]);
    ask_three(held, r, [(MOST_SOLD, 2_000_001_999_999_999), (MOST_SOLD, 2_000_001_999_999_998), (MOST_SOLD, MOST_USED)]);
    // a taken balance has 6 to 12 digits, and each of them was seen
    let Tried { taken, .. } = held.digits;
    assert!(taken[..6].iter().all(|&n| n == 0) && taken[6..].iter().all(|&n| n > 0), "taken balances by digits: {taken:?}");
}
