//! The reference of tests/differential tuned by hand: 64-bit numbers only, runs changed in place, texts read and written
//! where they stand, nothing copied, nothing allocated, a run that was just made not tested for order again. The same
//! answers: bench/main.rs compares them before it measures.

#[derive(Clone, Copy, PartialEq)]
pub struct Run {
    pub trip: u64,
    pub x: [u64; 16],
    pub count: u64,
    pub km: [u64; 3],
    pub grams: [u64; 60],
    pub rests: [u64; 60],
    pub total_grams: [u64; 15],
    pub total_rests: [u64; 15],
}

/// Areas 0 to 15, and how many of the common records are used.
#[derive(Clone, PartialEq)]
pub struct Areas {
    pub runs: [Run; 16],
    pub common: u64,
}

pub const ZERO: Run =
    Run { trip: 0, x: [0; 16], count: 0, km: [0; 3], grams: [0; 60], rests: [0; 60], total_grams: [0; 15], total_rests: [0; 15] };

pub struct Head {
    pub trip: u64,
    pub temps: [i64; 12],
    /// The first and the last day, where the head is dated.
    pub days: Option<[u64; 2]>,
}

pub struct Record {
    pub class: u64,
    pub vehicles: u64,
    pub km: u64,
    pub shares: [u64; 3],
    pub speeds: [u64; 3],
}

const BILLION: u64 = 1_000_000_000;
const TRILLION: u64 = 1_000_000_000_000;

/// By class and quantity; class 5 is not a curve.
static CURVES: [[[i64; 3]; 5]; 7] = [
    [[110400, -15132000, 577890000], [900, -79000, 19391000], [6770, -1170000, 54734000], [0, 0, 0], [187000, -26974000, 1567700000]],
    [[6000, -475000, 22195000], [575, -54800, 4880000], [700, -67000, 2406000], [0, 0, 0], [187000, -26974000, 1567700000]],
    [[4200, -332500, 15536500], [253, -24112, 2147200], [308, -29480, 1058640], [0, 0, 0], [187000, -26974000, 1567700000]],
    [[11000, -1165000, 42098000], [400, -63000, 5278000], [1000, -166000, 7431000], [0, 0, 0], [72000, -9250000, 746250000]],
    [[0, 0, 0]; 5],
    [[2000, -256000, 18281000], [1400, -159200, 14921000], [660, -113000, 6024000], [125, -5770, 2880000], [233000, -25646000, 1362200000]],
    [[2000, -313000, 17838000], [1270, -167400, 9037000], [281, -65000, 4505000], [400, -55000, 2687000], [153000, -21810000, 1527400000]],
];
static TWO_STROKE: [[u64; 3]; 5] =
    [[207000000, 75000000, 87000000], [3000000, 10000000, 7500000], [154000000, 72000000, 59000000], [0, 0, 0], [1115000000, 660000000, 569000000]];
/// p - 10,000 and q by fuel and quantity.
static RATIOS: [[i64; 2]; 15] = [
    [27000, 90], [1400, 6], [18000, 60], [0, 0], [4700, 9],
    [9000, 30], [3000, 13], [21000, 90], [21000, 100], [3400, 8],
    [26600, 90], [-200, 6], [12400, 60], [0, 0], [4700, 9],
];
static FUELS: [usize; 7] = [0, 0, 0, 2, 0, 1, 1];

/// The X of a class (from 0) by quantity: those of its fuel, but CO of class 3 has the last.
#[inline]
fn x_of(x: &[u64; 16], class: usize) -> [u64; 5] {
    let at = FUELS[class] * 5;
    [if class == 2 { x[15] } else { x[at] }, x[at + 1], x[at + 2], x[at + 3], x[at + 4]]
}

/// The lengths of the months, in a leap year too.
static MONTHS: [[u64; 12]; 2] = [[31, 28, 31, 30, 31, 30, 31, 31, 30, 31, 30, 31], [31, 29, 31, 30, 31, 30, 31, 31, 30, 31, 30, 31]];

/// From 1980 to 2100 every fourth year but the last.
#[inline]
fn months_of(year: u64) -> &'static [u64; 12] {
    &MONTHS[(year % 4 == 0 && year != 2100) as usize]
}

/// The year, the month from 0 and the day of a number that is a day.
#[inline]
fn day_of(written: u64) -> Option<(u64, usize, u64)> {
    let (year, rest) = (written / 10_000, written % 10_000);
    let (month, day) = ((rest / 100).wrapping_sub(1) as usize, rest % 100);
    if year.wrapping_sub(1980) > 120 || month > 11 || day.wrapping_sub(1) >= months_of(year)[month] {
        return None;
    }
    Some((year, month, day))
}

/// The sums of B × Q by fuel and quantity, months added one by one with their weight.
struct Sums {
    start: i64,
    slope: i64,
    sums: [i64; 15],
}

impl Sums {
    #[inline]
    fn of(trip: u64) -> Sums {
        let l = trip as i64;
        Sums { start: 64_700_000 - 250_000 * l, slope: 97_400 - 385 * l, sums: [0; 15] }
    }

    #[inline]
    fn add(&mut self, t: i64, weight: u64) {
        let b = (self.start - self.slope * t) * weight as i64;
        for i in 0..15 {
            self.sums[i] += b * (RATIOS[i][0] - RATIOS[i][1] * t).max(0);
        }
    }

    /// X of these sums and of all weights together, half up.
    #[inline(always)]
    fn put(&self, whole: u64, x: &mut [u64; 16]) {
        for i in 0..15 {
            x[i] = (self.sums[i] as u64 + 500 * whole) / (1000 * whole);
        }
        x[15] = (self.sums[0] as u64 * 72 + 50_000 * whole) / (100_000 * whole);
    }
}

/// Opens a run in place, which is all zeros before; a refused head leaves it so.
pub fn open(head: &Head, run: &mut Run) -> u64 {
    if head.trip < 10 || 200 < head.trip {
        return 1;
    }
    for &t in &head.temps {
        if t < -300 || 400 < t {
            return 2;
        }
    }
    let mut sums = Sums::of(head.trip);
    match head.days {
        None => {
            for &t in &head.temps {
                sums.add(t, 1);
            }
            sums.put(12, &mut run.x);
        }
        Some([first, last]) => {
            let (Some((year, from, first)), Some((other, to, last))) = (day_of(first), day_of(last)) else { return 19 };
            if year != other || to < from || (to == from && last < first) {
                return 20;
            }
            let months = months_of(year);
            let mut whole = 0;
            // all of the months between, without what is before the first day and behind the last
            for month in from..=to {
                let before = if month == from { first - 1 } else { 0 };
                let end = if month == to { last } else { months[month] };
                sums.add(head.temps[month], end - before);
                whole += end - before;
            }
            sums.put(whole, &mut run.x);
        }
    }
    run.trip = head.trip;
    0
}

/// L, the records, the X and the kilometres within their limits.
#[inline]
pub fn limits_in_order(run: &Run) -> bool {
    if run.trip < 10 || 200 < run.trip || 5000 < run.count {
        return false;
    }
    for &x in &run.x {
        if 4_900_000_000 < x {
            return false;
        }
    }
    for &km in &run.km {
        if BILLION * run.count < km {
            return false;
        }
    }
    true
}

pub fn in_order(run: &Run) -> bool {
    if !limits_in_order(run) {
        return false;
    }
    // without records every sum is 0, which one number tells
    if run.count == 0 {
        return any_of(run) == 0;
    }
    sums_in_order(run)
}

/// The grams and rests by `or`, those of the totals too.
#[inline]
fn any_of(run: &Run) -> u64 {
    let mut any = 0;
    for j in 0..60 {
        any |= run.grams[j] | run.rests[j];
    }
    for t in 0..15 {
        any |= run.total_grams[t] | run.total_rests[t];
    }
    any
}

/// Each sum of a run with its rest within the run's limit, and each total that of its four. Four rests are below 4 × 10^9, so a
/// total has at most 3 g more than the grams of its four, and what it has more is their carry.
#[inline]
fn sums_in_order(run: &Run) -> bool {
    let limit = TRILLION * run.count;
    for t in 0..15 {
        let (mut grams, mut rests) = (0, 0);
        for j in t * 4..t * 4 + 4 {
            let (g, s) = (run.grams[j], run.rests[j]);
            if s >= BILLION || g > limit || (g == limit && s > 0) {
                return false;
            }
            grams += g;
            rests += s;
        }
        let (carry, rest) = (run.total_grams[t].wrapping_sub(grams), run.total_rests[t]);
        if carry > 3 || rest >= BILLION || carry * BILLION + rest != rests {
            return false;
        }
    }
    true
}

/// Each total that of its four, of sums that are in order, without a branch for each.
#[inline]
fn totals_in_order(run: &Run) -> bool {
    let (mut wide, mut over, mut differ) = (0, 0, 0);
    for t in 0..15 {
        let (g, s) = (&run.grams[t * 4..t * 4 + 4], &run.rests[t * 4..t * 4 + 4]);
        let (carry, rest) = (run.total_grams[t].wrapping_sub(g[0] + g[1] + g[2] + g[3]), run.total_rests[t]);
        wide |= carry;
        // half a rest, moved so that 10^9 comes to 2^29; `or` keeps any bit from there on
        over |= rest / 2 + ((1 << 29) - BILLION / 2);
        differ |= (s[0] + s[1] + s[2] + s[3]) ^ carry.wrapping_mul(BILLION).wrapping_add(rest);
    }
    (wide < 4) & (over < 1 << 29) & (differ == 0)
}

fn record_fault(r: &Record) -> u64 {
    if r.class.wrapping_sub(1) > 6 {
        return 3;
    }
    if r.vehicles.wrapping_sub(1) > 999_999 {
        return 4;
    }
    if r.km.wrapping_sub(1) > 999_998 {
        return 5;
    }
    if BILLION < r.vehicles * r.km {
        return 6;
    }
    let [a, b, c] = r.shares;
    if a > 100 || b > 100 || c > 100 || a + b + c != 100 {
        return 7;
    }
    for &v in &r.speeds {
        if v.wrapping_sub(10) > 120 {
            return 8;
        }
    }
    0
}

pub fn add(run: &mut Run, r: &Record) -> u64 {
    if !in_order(run) {
        return 16;
    }
    add_in_order(run, r)
}

/// Adds to a run that is known to be in order.
#[inline]
fn add_in_order(run: &mut Run, r: &Record) -> u64 {
    let number = record_fault(r);
    if number != 0 {
        return number;
    }
    if run.count >= 5000 {
        return 9;
    }
    take(run, r);
    0
}

/// Adds a record that no number fits.
#[inline]
fn take(run: &mut Run, r: &Record) {
    let class = r.class as usize - 1;
    let fuel = FUELS[class];
    let k = r.vehicles * r.km;
    let grams = &mut run.grams[fuel * 20..fuel * 20 + 20];
    let rests = &mut run.rests[fuel * 20..fuel * 20 + 20];
    // K × share split at 10^9, once for the five quantities
    let parts = r.shares.map(|s| (k * s / BILLION, k * s % BILLION));
    let mut put = |j: usize, g: u64, s: u64| {
        let s = rests[j] + s;
        let carry = (s >= BILLION) as u64;
        grams[j] += g + carry;
        rests[j] = s - carry * BILLION;
    };
    if class == 4 {
        for q in 0..5 {
            for road in 0..3 {
                let e = TWO_STROKE[q][road];
                let low = parts[road].1 * e;
                put(q * 4 + road, parts[road].0 * e + low / BILLION, low % BILLION);
            }
        }
    } else {
        let x = x_of(&run.x, class);
        for q in 0..5 {
            let [a, b, c] = CURVES[class][q];
            let e = r.speeds.map(|v| ((a * v as i64 + b) * v as i64 + c) as u64);
            for road in 0..3 {
                let low = parts[road].1 * e[road];
                put(q * 4 + road, parts[road].0 * e[road] + low / BILLION, low % BILLION);
            }
            let cold = k * ((e[0] * x[q] + BILLION / 2) / BILLION);
            put(q * 4 + 3, cold / 10_000_000, cold % 10_000_000 * 100);
        }
    }
    // the five totals of this fuel, from what their kinds are now
    for q in 0..5 {
        let (g, s) = (&grams[q * 4..q * 4 + 4], &rests[q * 4..q * 4 + 4]);
        let rest = s[0] + s[1] + s[2] + s[3];
        run.total_grams[fuel * 5 + q] = g[0] + g[1] + g[2] + g[3] + rest / BILLION;
        run.total_rests[fuel * 5 + q] = rest % BILLION;
    }
    run.km[fuel] += k;
    run.count += 1;
}

/// A list of records, nine numbers each, into a run of zeros: the number, how many were taken, and the place from 1 and the
/// number of the first refused one.
pub fn add_list(head: &Head, numbers: &[u64], run: &mut Run) -> (u64, u64, usize, u64) {
    let (records, rest) = numbers.as_chunks::<9>();
    if !rest.is_empty() {
        return (10, 0, 0, 0);
    }
    let number = open(head, run);
    if number != 0 {
        return (number, 0, 0, 0);
    }
    let (mut taken, mut place, mut refused) = (0, 0, 0);
    for (i, n) in records.iter().enumerate() {
        let record = Record { class: n[0], vehicles: n[1], km: n[2], shares: [n[3], n[4], n[5]], speeds: [n[6], n[7], n[8]] };
        let number = add_in_order(run, &record);
        if number == 0 {
            taken += 1;
        } else if refused == 0 {
            (place, refused) = (i + 1, number);
        }
    }
    (0, taken, place, refused)
}

/// The order of a run to be joined: X, sums and totals in one pass each by `or`, one by one only where that does not decide.
#[inline]
fn joinable(run: &Run) -> bool {
    // an X moved so that 4,900,000,001 comes to 2^33; `or` keeps any bit from there on, and those of an X that wraps
    let mut wide = 0;
    for &x in &run.x {
        wide |= x | x.wrapping_add((1 << 33) - 4_900_000_001);
    }
    let most = BILLION * run.count;
    run.trip.wrapping_sub(10) <= 190
        && run.count <= 5000
        && wide < 1 << 33
        && (run.km[0] <= most) & (run.km[1] <= most) & (run.km[2] <= most)
        && area_sums_in_order(run)
}

/// Joins two runs into a third, which is the first where it is refused.
#[inline]
pub fn join(first: &Run, second: &Run, to: &mut Run) -> u64 {
    let mut differ = first.trip ^ second.trip;
    for i in 0..16 {
        differ |= first.x[i] ^ second.x[i];
    }
    let number = if !joinable(first) || !joinable(second) {
        16
    } else if differ != 0 {
        21
    } else if first.count + second.count > 5000 {
        22
    } else {
        0
    };
    if number != 0 {
        *to = first.clone();
        return number;
    }
    to.trip = first.trip;
    to.x = first.x;
    to.count = first.count + second.count;
    for f in 0..3 {
        to.km[f] = first.km[f] + second.km[f];
    }
    put_together(&first.grams, &first.rests, &second.grams, &second.rests, &mut to.grams, &mut to.rests);
    put_together(&first.total_grams, &first.total_rests, &second.total_grams, &second.total_rests, &mut to.total_grams, &mut to.total_rests);
    0
}

/// Grams and rests of two added up.
#[inline]
fn put_together<const N: usize>(g: &[u64; N], s: &[u64; N], h: &[u64; N], t: &[u64; N], grams: &mut [u64; N], rests: &mut [u64; N]) {
    for j in 0..N {
        // two rests are below 2^31: moved so that 10^9 comes to 2^30, the next bit is the carry
        let rest = s[j] + t[j];
        let carry = (rest + ((1 << 30) - BILLION)) >> 30;
        grams[j] = g[j] + h[j] + carry;
        rests[j] = rest - carry * BILLION;
    }
}

/// Opens all areas in place; a refused head leaves zeros.
pub fn open_areas(head: &Head, areas: &mut Areas) -> u64 {
    *areas = Areas { runs: [ZERO; 16], common: 0 };
    let [first, others @ ..] = &mut areas.runs;
    let number = open(head, first);
    for run in others {
        run.trip = first.trip;
        run.x = first.x;
    }
    number
}

/// The order of all areas, without a branch for each number: ranges of L and X once, in the others only whether they differ.
#[inline]
fn areas_in_order(areas: &Areas) -> bool {
    let [first, others @ ..] = &areas.runs;
    // an X moved so that 4,900,000,001 comes to 2^33; `or` keeps any bit from there on, and those of an X that wraps
    let mut wide = 0;
    for &x in &first.x {
        wide |= x | x.wrapping_add((1 << 33) - 4_900_000_001);
    }
    if first.trip < 10 || 200 < first.trip || wide >= 1 << 33 {
        return false;
    }
    let mut differ = 0;
    for run in others {
        differ |= run.trip ^ first.trip;
        for i in 0..16 {
            differ |= run.x[i] ^ first.x[i];
        }
    }
    let mut beyond = 0;
    for run in &areas.runs {
        let most = BILLION * run.count;
        if 5000 < run.count || most < run.km[0] || most < run.km[1] || most < run.km[2] || !area_sums_in_order(run) {
            return false;
        }
        beyond += run.count.saturating_sub(300);
    }
    differ == 0 && beyond == areas.common && beyond <= 200
}

/// The sums and totals of an area: in one pass each by `or`, which no number is above; one by one only where that does not decide.
#[inline]
fn area_sums_in_order(run: &Run) -> bool {
    if run.count == 0 {
        return any_of(run) == 0;
    }
    let (mut any, mut over) = (0, 0);
    for j in 0..60 {
        any |= run.grams[j];
        // half a rest, moved so that 10^9 comes to 2^29; `or` keeps any bit from there on
        over |= run.rests[j] / 2 + ((1 << 29) - BILLION / 2);
    }
    // `&`: both are known before the only branch
    if (any < TRILLION * run.count) & (over < 1 << 29) { totals_in_order(run) } else { sums_in_order(run) }
}

/// Adds a record to an area in place.
pub fn add_area(areas: &mut Areas, area: u64, r: &Record) -> u64 {
    if !areas_in_order(areas) {
        return 16;
    }
    if area > 15 {
        return 17;
    }
    let number = record_fault(r);
    if number != 0 {
        return number;
    }
    let run = &mut areas.runs[area as usize];
    if run.count >= 300 {
        if areas.common >= 200 {
            return 18;
        }
        areas.common += 1;
    }
    take(run, r);
    0
}

/// The run of an area into a run, of zeros where it is refused.
pub fn area_run(areas: &Areas, area: u64, run: &mut Run) -> u64 {
    let ordered = areas_in_order(areas);
    if ordered && area < 16 {
        *run = areas.runs[area as usize].clone();
        return 0;
    }
    *run = ZERO;
    if ordered { 17 } else { 16 }
}

/// The printed total of a place in order.
#[inline]
fn total_at(run: &Run, place: usize) -> u64 {
    run.total_grams[place] + (run.total_rests[place] >= BILLION / 2) as u64
}

/// The number and the printed total.
pub fn total(run: &Run, fuel: u64, quantity: u64) -> (u64, u64) {
    if !in_order(run) {
        return (16, 0);
    }
    total_of(run, fuel, quantity)
}

/// The same of a run in order.
#[inline]
pub fn total_of(run: &Run, fuel: u64, quantity: u64) -> (u64, u64) {
    if fuel.wrapping_sub(1) > 2 || quantity.wrapping_sub(1) > 4 {
        return (11, 0);
    }
    (0, total_at(run, (fuel as usize - 1) * 5 + quantity as usize - 1))
}

/// k and the digits worked of a k in its range: three digits at a time, since a division costs the same for three as for one,
/// and none where the remainder is 0. 1.5 millionths at most, so five digits are noughts and the sixth is a comparison.
#[inline]
fn worked(sold: u64, used: u64) -> Option<(u64, u64)> {
    // the quick test: behind it S × 10^6 is below 2F, and 1000F has room (k is below 500,000 with a larger F)
    if sold > 999_999_999 || sold * 1_000_000 >= 2 * used || used > 2_100_000_000_000_000 {
        return None;
    }
    let one = (sold * 1_000_000 >= used) as u64;
    let rest = sold * 1_000_000 - one * used;
    if rest == 0 {
        return (one == 1).then_some((1_000_000, 6));
    }
    let (three, rest) = (rest * 1000 / used, rest * 1000 % used);
    let front = (one * 1000 + three) * 1000;
    let (k, digits) = if rest == 0 {
        (front, 6 + digits_of(three))
    } else {
        let (three, rest) = (rest * 1000 / used, rest * 1000 % used);
        (front + three + (2 * rest >= used) as u64, if rest == 0 { 9 + digits_of(three) } else { 12 })
    };
    (k.wrapping_sub(500_000) <= 1_000_000).then_some((k, digits))
}

/// How many of three digits are before the noughts at their end.
#[inline]
fn digits_of(three: u64) -> u64 {
    match three {
        n if n % 10 != 0 => 3,
        n if n % 100 != 0 => 2,
        _ => 1,
    }
}

/// The number, k, the digits worked and the balanced total.
pub fn balance(run: &Run, fuel: u64, quantity: u64, sold: u64) -> (u64, u64, u64, u64) {
    if !in_order(run) {
        return (16, 0, 0, 0);
    }
    if fuel.wrapping_sub(1) > 2 || quantity.wrapping_sub(1) > 4 {
        return (11, 0, 0, 0);
    }
    let place = (fuel as usize - 1) * 5;
    let used = total_at(run, place + 4);
    if used == 0 {
        return (12, 0, 0, 0);
    }
    let Some((k, digits)) = worked(sold, used) else { return (13, 0, 0, 0) };
    // total × k split at 10^6, since it may have more than 64 bits
    let total = total_at(run, place + quantity as usize - 1);
    (0, k, digits, total / 1_000_000 * k + (total % 1_000_000 * k + 500_000) / 1_000_000)
}

/// A number right-justified in a field of spaces.
#[inline]
fn put_number(field: &mut [u8], mut n: u64) {
    let mut i = field.len();
    loop {
        i -= 1;
        field[i] = b'0' + (n % 10) as u8;
        n /= 10;
        if n == 0 {
            return;
        }
    }
}

/// The number and the length.
pub fn report(run: &Run, buffer: &mut [u8]) -> (u64, usize) {
    if !in_order(run) {
        return (16, 0);
    }
    report_in_order(run, buffer)
}

fn report_in_order(run: &Run, buffer: &mut [u8]) -> (u64, usize) {
    let mut totals = [0; 15];
    let mut length = 0;
    for place in 0..15 {
        totals[place] = total_at(run, place);
        length += if totals[place] == 0 { 0 } else { 97 };
    }
    if buffer.len() < length {
        return (14, 0);
    }
    let mut lines = buffer.chunks_exact_mut(97);
    for place in 0..15 {
        if totals[place] == 0 {
            continue;
        }
        let line = lines.next().unwrap();
        line.fill(b' ');
        line[1] = b'1' + (place / 5) as u8;
        line[2..6].copy_from_slice([b"  CO", b" NOX", b" VOC", b"  PM", b"  FC"][place % 5]);
        for kind in 0..4 {
            let j = place * 4 + kind;
            put_number(&mut line[6 + kind * 18..24 + kind * 18], run.grams[j] + (run.rests[j] >= BILLION / 2) as u64);
        }
        put_number(&mut line[78..96], totals[place]);
        line[96] = b'\n';
    }
    (0, length)
}

/// A number of a sheet without sign; None where the field is no such number.
#[inline]
fn take_number(field: &[u8]) -> Option<u64> {
    let mut i = 0;
    while i < field.len() && field[i] == b' ' {
        i += 1;
    }
    // at least one digit, and a nought only alone
    if i == field.len() || (field[i] == b'0' && i + 1 < field.len()) {
        return None;
    }
    let mut n = 0;
    for &b in &field[i..] {
        let d = b.wrapping_sub(b'0');
        if d > 9 {
            return None;
        }
        n = n * 10 + d as u64;
    }
    Some(n)
}

/// The same with a minus before a number that is not 0.
#[inline]
fn take_signed(field: &[u8]) -> Option<i64> {
    let minus = field.iter().position(|&b| b != b' ').filter(|&i| field[i] == b'-');
    match minus {
        None => take_number(field).map(|n| n as i64),
        Some(i) => match take_number(&field[i + 1..]) {
            Some(n) if n != 0 && field[i + 1] != b' ' => Some(-(n as i64)),
            _ => None,
        },
    }
}

/// A head of 65 bytes, or of 83 with dates.
fn take_head(line: &[u8]) -> Option<Head> {
    let mut head = Head { trip: take_number(&line[..5])?, temps: [0; 12], days: None };
    for i in 0..12 {
        head.temps[i] = take_signed(&line[5 + i * 5..10 + i * 5])?;
    }
    if line.len() == 83 {
        head.days = Some([take_number(&line[65..74])?, take_number(&line[74..])?]);
    }
    Some(head)
}

#[inline]
fn take_record(line: &[u8; 41]) -> Option<Record> {
    Some(Record {
        class: take_number(&line[..2])?,
        vehicles: take_number(&line[2..9])?,
        km: take_number(&line[9..16])?,
        shares: [take_number(&line[16..20])?, take_number(&line[20..24])?, take_number(&line[24..28])?],
        speeds: [take_number(&line[28..32])?, take_number(&line[32..36])?, take_number(&line[36..40])?],
    })
}

/// Reads a sheet into a run of zeros: the number and its line. A refused sheet leaves the run half filled.
pub fn sheet(text: &[u8], run: &mut Run) -> (u64, usize) {
    // an LF before the one that is looked at is no digit of a field
    let ends = |end: usize| text.get(end) == Some(&b'\n');
    let end = if ends(65) { 65 } else { 83 };
    if !ends(end) {
        return (10, 1);
    }
    let Some(head) = take_head(&text[..end]) else { return (10, 1) };
    let number = open(&head, run);
    if number != 0 {
        return (number, 1);
    }
    let lines = text[end + 1..].chunks_exact(41);
    let mut n = 2;
    let rest = lines.remainder().len();
    for line in lines {
        let line: &[u8; 41] = line.try_into().unwrap();
        if line[40] != b'\n' {
            return (10, n);
        }
        let Some(record) = take_record(line) else { return (10, n) };
        let number = add_in_order(run, &record);
        if number != 0 {
            return (number, n);
        }
        n += 1;
    }
    if rest == 0 { (0, 0) } else { (10, n) }
}

/// Sheet text to report text: the number and the length.
pub fn report_sheet(text: &[u8], buffer: &mut [u8]) -> (u64, usize) {
    let mut run = ZERO;
    let (number, line) = if text.len() > 65_536 { (10, 1) } else { sheet(text, &mut run) };
    if number == 0 {
        return report_in_order(&run, buffer);
    }
    if buffer.len() < 17 {
        return (14, 0);
    }
    buffer[..7].copy_from_slice(b"REFUSED");
    buffer[7..16].fill(b' ');
    put_number(&mut buffer[7..10], number);
    put_number(&mut buffer[10..16], line as u64);
    buffer[16] = b'\n';
    (0, 17)
}
