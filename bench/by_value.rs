//! A total asked of a run that passes by value, as the archive takes it. (b) is here written for that crossing: the test of
//! order by `or` over two numbers at a time, in SSE2, which every x86-64 processor has and no plain shape was compiled to.
use super::*;
use std::arch::x86_64::*;

const BILLION: u64 = 1_000_000_000;
/// 10^9 and this make 2^30, so that `or` over rests with this added tells one that reaches 10^9.
const TO_A_BIT: u64 = (1 << 30) - BILLION;

#[inline(always)]
fn two(numbers: &[u64], at: usize) -> __m128i {
    unsafe { _mm_loadu_si128(numbers[at..at + 2].as_ptr().cast()) }
}

#[inline(always)]
fn either(v: __m128i) -> u64 {
    unsafe { (_mm_cvtsi128_si64(v) | _mm_cvtsi128_si64(_mm_unpackhi_epi64(v, v))) as u64 }
}

/// By `or`: grams, rests, rests with what makes 10^9 a bit, what totals have above the grams of their four, and what is wrong then.
struct Bits {
    grams: __m128i,
    rests: __m128i,
    marks: __m128i,
    carries: __m128i,
    faults: __m128i,
}

impl Bits {
    /// Four sums of each of two totals, and these.
    #[inline(always)]
    fn put(&mut self, g: [__m128i; 4], r: [__m128i; 4], total_grams: __m128i, total_rests: __m128i) {
        unsafe {
            let to_a_bit = _mm_set1_epi64x(TO_A_BIT as i64);
            for v in g {
                self.grams = _mm_or_si128(self.grams, v);
            }
            for v in [r[0], r[1], r[2], r[3], total_rests] {
                self.rests = _mm_or_si128(self.rests, v);
                self.marks = _mm_or_si128(self.marks, _mm_add_epi64(v, to_a_bit));
            }
            let added = |v: [__m128i; 4]| {
                let (first, second) = (_mm_add_epi64(v[0], v[1]), _mm_add_epi64(v[2], v[3]));
                _mm_add_epi64(_mm_unpacklo_epi64(first, second), _mm_unpackhi_epi64(first, second))
            };
            let carries = _mm_sub_epi64(total_grams, added(g));
            self.carries = _mm_or_si128(self.carries, carries);
            let billionths = _mm_add_epi64(_mm_mul_epu32(carries, _mm_set1_epi64x(BILLION as i64)), total_rests);
            self.faults = _mm_or_si128(self.faults, _mm_xor_si128(billionths, added(r)));
        }
    }
}

/// Where it says yes, sums and totals are in order: each rest is below 10^9, each sum below the limit, each total that of its four.
#[inline(always)]
fn surely_in_order(run: &tuned::Run) -> bool {
    unsafe {
        let none = _mm_setzero_si128();
        let mut bits = Bits { grams: none, rests: none, marks: none, carries: none, faults: none };
        let four = |a: &[u64], j| [two(a, j), two(a, j + 2), two(a, j + 4), two(a, j + 6)];
        for t in (0..14).step_by(2) {
            bits.put(four(&run.grams, t * 4), four(&run.rests, t * 4), two(&run.total_grams, t), two(&run.total_rests, t));
        }
        // the last total, beside one of nothing
        let last = |a: &[u64]| [two(a, 56), two(a, 58), none, none];
        let alone = |a: &[u64; 15]| _mm_loadl_epi64(a[14..].as_ptr().cast());
        bits.put(last(&run.grams), last(&run.rests), alone(&run.total_grams), alone(&run.total_rests));
        either(bits.grams) < BILLION * 1000 * run.count
            && (either(bits.rests) | either(bits.marks)) < 1 << 30
            && either(bits.carries) < 4
            && either(bits.faults) == 0
    }
}

fn in_order(run: &tuned::Run) -> bool {
    tuned::limits_in_order(run) && surely_in_order(run) || tuned::in_order(run)
}

#[allow(improper_ctypes_definitions)]
#[inline(never)]
extern "C" fn total(run: tuned::Run, fuel: u64, quantity: u64) -> (u64, u64) {
    if !in_order(&run) {
        return (16, 0);
    }
    tuned::total_of(&run, fuel, quantity)
}

/// One of the sums, totals and rests, or how many records there are.
fn number_of(run: &mut tuned::Run, k: usize) -> &mut u64 {
    match k {
        0..60 => &mut run.grams[k],
        60..120 => &mut run.rests[k - 60],
        120..135 => &mut run.total_grams[k - 120],
        135..150 => &mut run.total_rests[k - 135],
        _ => &mut run.count,
    }
}

/// A run in order and the same with a number damaged are told as the other (b) tells them.
fn compare(run: &tuned::Run) {
    assert!(in_order(run) && surely_in_order(run), "a run in order is not told by `or`");
    for k in 0..=150 {
        for change in [1, u64::MAX, BILLION, 1 << 29, 1 << 63, u64::MAX - TO_A_BIT] {
            let mut damaged = *run;
            let number = number_of(&mut damaged, k);
            *number = number.wrapping_add(change);
            assert!(in_order(&damaged) == tuned::in_order(&damaged), "number {k} with {change} more");
        }
    }
}

/// The best time of a total of a full run.
pub struct Best([f64; 3]);

impl Best {
    pub fn new() -> Best {
        Best([f64::MAX; 3])
    }

    pub fn rows(&self) -> impl Iterator<Item = Row> {
        [Row { name: "total, (b) by value".into(), times: self.0, most: 1.5 }].into_iter()
    }

    /// Measures it once more.
    pub fn pass(&mut self, runs: &(c::Run, plain::Run, tuned::Run), repetitions: usize) {
        let (ours, a, b) = runs;
        compare(b);
        let places: Vec<(u64, u64)> = (1..=3).flat_map(|f| (1..=5).map(move |q| (f, q))).collect();
        let times = best(repetitions, [
            &mut || places.iter().for_each(|&(f, q)| our_total(ours, f, q)),
            &mut || places.iter().for_each(|&(f, q)| { black_box(plain_total(black_box(a), black_box(f), q)); }),
            &mut || places.iter().for_each(|&(f, q)| { let (run, f) = (black_box(b), black_box(f)); black_box(total(*run, f, q)); }),
        ]);
        keep(&mut self.0, times.map(|t| t / 15.0));
    }
}
