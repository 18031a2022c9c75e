//! Balances by the digits worked: full runs whose FC of a fuel is set by hand, so that S/F ends at the digit of the row. Size of
//! S and F, fuels and quantities are alike in all rows: what differs is k and its digits.
use super::*;

#[inline(never)]
fn plain_balance(run: &plain::Run, fuel: u64, quantity: u64, sold: u64) -> (u64, u64, u64, u64) {
    match run.balance(fuel, quantity, sold) {
        Ok((k, digits, grams)) => (0, k, digits, grams),
        Err(number) => (number, 0, 0, 0),
    }
}

#[inline(never)]
fn tuned_balance(run: &tuned::Run, fuel: u64, quantity: u64, sold: u64) -> (u64, u64, u64, u64) {
    tuned::balance(run, fuel, quantity, sold)
}

/// Each row: its digits n, and S/F of its eight balances as parts of 10^n. One part of 10^6 is the only k with 6.
const DIGITS: [(u32, [u64; 8]); 4] = [
    (6, [1; 8]),
    (7, [5, 13, 8, 11, 6, 15, 9, 12]),
    (9, [503, 1301, 807, 1109, 611, 1499, 909, 1203]),
    (12, [500_003, 1_300_001, 806_307, 1_109_999, 610_001, 1_499_999, 908_973, 1_203_407]),
];

/// The same runs of all three, and fuel, quantity and S of the balance of each.
struct Balances {
    ours: Vec<c::Run>,
    a: Vec<plain::Run>,
    b: Vec<tuned::Run>,
    asked: Vec<(u64, u64, u64)>,
}

impl Balances {
    fn new(runs: &(c::Run, plain::Run, tuned::Run), digits: u32, parts: [u64; 8]) -> Balances {
        let mut balances = Balances { ours: vec![], a: vec![], b: vec![], asked: vec![] };
        for (i, part) in parts.into_iter().enumerate() {
            let (fuel, quantity) = (i % 3, i % 5);
            let factor = 100_000_000 / (i as u64 + 1) / part;
            let used = 10u64.pow(digits) * factor;
            // of those with twelve digits every other one ends nowhere up to the twelfth
            let sold = part * factor + (digits == 12 && i % 2 == 1) as u64;
            let (mut a, mut b) = (runs.1.clone(), runs.2.clone());
            for (kind, grams) in [used / 4, used / 4, used / 4, used - used / 4 * 3].into_iter().enumerate() {
                let place = fuel * 20 + 16 + kind;
                (b.grams[place], b.rests[place]) = (grams, 0);
                a.sums[fuel][4][kind] = plain::Sum { grams, rest: 0 };
            }
            (b.total_grams[fuel * 5 + 4], b.total_rests[fuel * 5 + 4]) = (used, 0);
            a.settle();
            balances.ours.push(c::Run {
                grams: b.grams,
                rests: b.rests,
                #[cfg(not(no_totals))]
                total_grams: b.total_grams,
                #[cfg(not(no_totals))]
                total_rests: b.total_rests,
                ..runs.0
            });
            balances.a.push(a);
            balances.b.push(b);
            balances.asked.push((fuel as u64 + 1, quantity as u64 + 1, sold));
        }
        balances
    }

    /// All are taken with these digits, and the three answer the same.
    fn compare(&self, digits: u32) {
        for (i, &(fuel, quantity, sold)) in self.asked.iter().enumerate() {
            let ours = c::haldurap_balance(self.ours[i], fuel, quantity, sold);
            let theirs = plain_balance(&self.a[i], fuel, quantity, sold);
            assert!((ours.number, ours.k, ours.digits, ours.grams) == theirs, "the balances differ");
            assert!(theirs == tuned_balance(&self.b[i], fuel, quantity, sold), "the balances differ");
            assert_eq!((theirs.0, theirs.2), (0, digits as u64), "a balance of other digits");
        }
    }

    /// ns a balance.
    fn times(&self, repetitions: usize) -> [f64; 3] {
        let Balances { ours, a, b, asked } = self;
        let times = best(repetitions, [
            &mut || ours.iter().zip(asked).for_each(|(run, &(f, q, s))| { let (run, f) = (black_box(run), black_box(f)); let _ = black_box(c::haldurap_balance(*run, f, q, s)); }),
            &mut || a.iter().zip(asked).for_each(|(run, &(f, q, s))| { black_box(plain_balance(black_box(run), black_box(f), q, s)); }),
            &mut || b.iter().zip(asked).for_each(|(run, &(f, q, s))| { black_box(tuned_balance(black_box(run), black_box(f), q, s)); }),
        ]);
        times.map(|t| t / 8.0)
    }
}

/// The best times by digits.
pub struct Best([[f64; 3]; DIGITS.len()]);

impl Best {
    pub fn new() -> Best {
        Best([[f64::MAX; 3]; DIGITS.len()])
    }

    pub fn rows(&self) -> impl Iterator<Item = Row> {
        DIGITS.iter().zip(self.0).map(|((digits, _), times)| Row { name: format!("balance, {digits} digits"), times, most: 1.5 })
    }

    /// Whether the division stops early: each row of the archive faster than the next.
    pub fn stops_early(&self) -> bool {
        self.0.is_sorted_by(|fewer, more| fewer[0] < more[0])
    }

    /// Measures everything once more.
    pub fn pass(&mut self, runs: &(c::Run, plain::Run, tuned::Run), repetitions: usize) {
        for ((digits, parts), kept) in DIGITS.into_iter().zip(&mut self.0) {
            let balances = Balances::new(runs, digits, parts);
            balances.compare(digits);
            keep(kept, balances.times(repetitions));
        }
    }
}
