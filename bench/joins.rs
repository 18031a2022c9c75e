//! Joins of two runs, which pass by value. (b) is timed twice: by the same crossing, two runs by value and an answer back, and by
//! reference into a third run, as the other rows have it.
use super::*;

#[inline(never)]
fn plain_join(first: &plain::Run, second: &plain::Run) -> plain::Run {
    plain::join(first, second).unwrap_or_else(|_| first.clone())
}

struct TunedAnswer {
    number: u64,
    run: tuned::Run,
}

// what a C program does: both runs are copied to the callee's stack, and the answer's place is handed in
#[allow(improper_ctypes_definitions)]
#[inline(never)]
extern "C" fn tuned_join(first: tuned::Run, second: tuned::Run) -> TunedAnswer {
    let mut answer = TunedAnswer { number: 0, run: tuned::ZERO };
    answer.number = tuned::join(&first, &second, &mut answer.run);
    answer
}

#[inline(always)]
fn our_join([first, second]: &[c::Run; 2]) {
    let _ = black_box(c::haldurap_join(*first, *second));
}

#[inline(always)]
fn tuned_by_value([first, second]: &[tuned::Run; 2]) {
    black_box(tuned_join(*first, *second));
}

#[inline(never)]
fn tuned_join_into(first: &tuned::Run, second: &tuned::Run, run: &mut tuned::Run) -> u64 {
    tuned::join(first, second, run)
}

/// The same pairs of runs of all three, each pair under one head.
struct Pairs {
    ours: Vec<[c::Run; 2]>,
    a: Vec<[plain::Run; 2]>,
    b: Vec<[tuned::Run; 2]>,
}

/// How many records the two runs of each pair have; so few pairs stay near the processor.
const COUNTS: [[usize; 2]; 4] = [[2500, 2500], [4000, 1000], [40, 3000], [1200, 700]];

impl Pairs {
    fn new(inputs: &Inputs) -> Pairs {
        let mut pairs = Pairs { ours: vec![], a: vec![], b: vec![] };
        for (head, [one, other]) in COUNTS.into_iter().enumerate() {
            // the first records and those behind them
            let halves = [0..one, one..one + other].map(|places| {
                let numbers: Vec<u64> = inputs.c_records[places].iter().flat_map(|r| r.numbers()).collect();
                let mut b = tuned::ZERO;
                assert_eq!(tuned_list(&inputs.tuned_heads[head], &numbers, &mut b).0, 0);
                (c::add_list(inputs.c_heads[head], &numbers).run, plain_list(&inputs.heads[head], &numbers).run, b)
            });
            pairs.ours.push([halves[0].0, halves[1].0]);
            pairs.a.push([halves[0].1.clone(), halves[1].1.clone()]);
            pairs.b.push([halves[0].2.clone(), halves[1].2.clone()]);
        }
        pairs
    }

    /// All are taken, and the three give the same run.
    fn compare(&self) {
        for (i, [one, other]) in COUNTS.into_iter().enumerate() {
            let ours = c::haldurap_join(self.ours[i][0], self.ours[i][1]);
            let a = plain_join(&self.a[i][0], &self.a[i][1]);
            let b = tuned_join(self.b[i][0].clone(), self.b[i][1].clone());
            let mut run = tuned::ZERO;
            assert_eq!([ours.number, b.number, tuned_join_into(&self.b[i][0], &self.b[i][1], &mut run)], [0; 3]);
            assert!(same_runs(&ours.run, &a, &b.run) && run == b.run && run.count == (one + other) as u64, "the joins differ");
        }
        // refused joins, which are not timed: an X and L apart, more than 5,000 records, a rest and an X out of order, a total broken
        // by a billionth and by a gram (an archive without totals does not see these)
        let [first, second] = &self.b[0];
        let mut wrong: [tuned::Run; 7] = std::array::from_fn(|_| second.clone());
        wrong[0].x[15] += 1;
        wrong[1].trip = if second.trip == 200 { 199 } else { second.trip + 1 };
        wrong[2].count = 2501;
        wrong[3].rests[59] = 1_000_000_000;
        wrong[4].x[7] = 4_900_000_001;
        wrong[5].total_rests[14] ^= 1;
        wrong[6].total_grams[0] += 1;
        for (wrong, number) in wrong.into_iter().zip([21, 21, 22, 16, 16, 16, 16]).take(if cfg!(no_totals) { 5 } else { 7 }) {
            let other = c::Run {
                trip: wrong.trip,
                x: wrong.x,
                count: wrong.count,
                rests: wrong.rests,
                #[cfg(not(no_totals))]
                total_grams: wrong.total_grams,
                #[cfg(not(no_totals))]
                total_rests: wrong.total_rests,
                ..self.ours[0][1]
            };
            // as the second, and as the first
            let [good, bad] = [(self.ours[0][0], first), (other, &wrong)];
            for (one, two) in [(good, bad), (bad, good)] {
                let (ours, b) = (c::haldurap_join(one.0, two.0), tuned_join(one.1.clone(), two.1.clone()));
                assert!([ours.number, b.number] == [number; 2] && ours.run == one.0 && b.run == *one.1, "a refused join differs");
            }
        }
    }

    /// ns a join, by value and by reference.
    fn times(&self, repetitions: usize) -> [[f64; 3]; 2] {
        let Pairs { ours, a, b } = self;
        let mut run = tuned::ZERO;
        let by_value = best(repetitions, [
            &mut || ours.iter().for_each(|pair| our_join(black_box(pair))),
            &mut || a.iter().for_each(|[first, second]| { black_box(plain_join(black_box(first), black_box(second))); }),
            &mut || b.iter().for_each(|pair| tuned_by_value(black_box(pair))),
        ]);
        let by_reference = best(repetitions, [
            &mut || ours.iter().for_each(|pair| our_join(black_box(pair))),
            &mut || a.iter().for_each(|[first, second]| { black_box(plain_join(black_box(first), black_box(second))); }),
            &mut || b.iter().for_each(|[first, second]| { black_box(tuned_join_into(black_box(first), black_box(second), black_box(&mut run))); }),
        ]);
        [by_value, by_reference].map(|times| times.map(|t| t / COUNTS.len() as f64))
    }
}

/// The best times, (b) by value and by reference.
pub struct Best([[f64; 3]; 2]);

impl Best {
    pub fn new() -> Best {
        Best([[f64::MAX; 3]; 2])
    }

    pub fn rows(&self) -> impl Iterator<Item = Row> {
        ["join of two runs", "join, (b) by reference"].into_iter().zip(self.0).map(|(name, times)| Row { name: name.into(), times, most: 1.5 })
    }

    /// Measures everything once more.
    pub fn pass(&mut self, inputs: &Inputs, repetitions: usize) {
        let pairs = Pairs::new(inputs);
        pairs.compare();
        for (kept, times) in self.0.iter_mut().zip(pairs.times(repetitions)) {
            keep(kept, times);
        }
    }
}
