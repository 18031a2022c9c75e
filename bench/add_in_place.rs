// The add of crates/timing in plain Rust, tuned by hand: u64 only, the run changed in place, the same test of order.
// rustc -O -o target/add_in_place bench/add_in_place.rs && time target/add_in_place

const CURVES: [[i64; 3]; 35] = [
    [110400, -15132000, 577890000], [900, -79000, 19391000], [6770, -1170000, 54734000], [0, 0, 0], [187000, -26974000, 1567700000],
    [6000, -475000, 22195000], [575, -54800, 4880000], [700, -67000, 2406000], [0, 0, 0], [187000, -26974000, 1567700000],
    [4200, -332500, 15536500], [253, -24112, 2147200], [308, -29480, 1058640], [0, 0, 0], [187000, -26974000, 1567700000],
    [11000, -1165000, 42098000], [400, -63000, 5278000], [1000, -166000, 7431000], [0, 0, 0], [72000, -9250000, 746250000],
    [0, 0, 0], [0, 0, 0], [0, 0, 0], [0, 0, 0], [0, 0, 0],
    [2000, -256000, 18281000], [1400, -159200, 14921000], [660, -113000, 6024000], [125, -5770, 2880000], [233000, -25646000, 1362200000],
    [2000, -313000, 17838000], [1270, -167400, 9037000], [281, -65000, 4505000], [400, -55000, 2687000], [153000, -21810000, 1527400000],
];
const TWO_STROKE: [[u64; 3]; 5] =
    [[207000000, 75000000, 87000000], [3000000, 10000000, 7500000], [154000000, 72000000, 59000000], [0, 0, 0], [1115000000, 660000000, 569000000]];
const SLOPES: [[i64; 2]; 15] = [
    [37000, 90], [11400, 6], [28000, 60], [0, 0], [14700, 9],
    [19000, 30], [13000, 13], [31000, 90], [31000, 100], [13400, 8],
    [36600, 90], [9800, 6], [22400, 60], [0, 0], [14700, 9],
];
const BILLION: u64 = 1_000_000_000;

#[derive(Clone)]
struct Run { trip: u64, x: [u64; 16], count: u64, km: [u64; 3], grams: [u64; 60], rests: [u64; 60], total_grams: [u64; 15], total_rests: [u64; 15] }
struct Record { class: u64, vehicles: u64, km: u64, shares: [u64; 3], speeds: [u64; 3] }

fn open(trip: u64, temps: &[i64; 12]) -> Run {
    let mut x = [0u64; 16];
    for i in 0..15 {
        let mut sum = 0i64;
        for t in temps {
            let b = 64_700_000 - 250_000 * trip as i64 - (97_400 - 385 * trip as i64) * t;
            let q = SLOPES[i][0] - SLOPES[i][1] * t - 10_000;
            sum += b * q.max(0);
        }
        x[i] = (sum as u64 + 6_000) / 12_000;
        // CO of class 3
        if i == 0 { x[15] = (sum as u64 * 72 + 600_000) / 1_200_000; }
    }
    Run { trip, x, count: 0, km: [0; 3], grams: [0; 60], rests: [0; 60], total_grams: [0; 15], total_rests: [0; 15] }
}

fn in_order(r: &Run) -> bool {
    if r.trip < 10 || 200 < r.trip || 5000 < r.count { return false; }
    if r.x.iter().any(|&x| 4_900_000_000 < x) { return false; }
    let km = BILLION * r.count;
    if r.km.iter().any(|&k| km < k) { return false; }
    let limit = 1_000_000_000_000 * r.count;
    for t in 0..15 {
        let (mut grams, mut rests) = (0, 0);
        for j in t * 4..t * 4 + 4 {
            let (g, s) = (r.grams[j], r.rests[j]);
            if s >= BILLION || g > limit || (g == limit && s > 0) { return false; }
            grams += g;
            rests += s;
        }
        // what a total has more than the grams of its four is the carry of their rests
        let (carry, rest) = (r.total_grams[t].wrapping_sub(grams), r.total_rests[t]);
        if carry > 3 || rest >= BILLION || carry * BILLION + rest != rests { return false; }
    }
    true
}

fn refused(r: &Record) -> u64 {
    if r.class < 1 || 7 < r.class { return 3; }
    if r.vehicles < 1 || 1_000_000 < r.vehicles { return 4; }
    if r.km < 1 || 999_999 < r.km { return 5; }
    if BILLION < r.vehicles * r.km { return 6; }
    if r.shares.iter().any(|&s| 100 < s) || r.shares.iter().sum::<u64>() != 100 { return 7; }
    if r.speeds.iter().any(|&v| v < 10 || 130 < v) { return 8; }
    0
}

#[inline(never)]
fn add(run: &mut Run, r: &Record) -> u64 {
    if !in_order(run) { return 16; }
    let n = refused(r);
    if n != 0 { return n; }
    if run.count >= 5000 { return 9; }
    let fuel = if r.class >= 6 { 1 } else if r.class == 4 { 2 } else { 0 };
    let k = r.vehicles * r.km;
    for q in 0..5 {
        let e = |road: usize| -> u64 {
            if r.class == 5 { return TWO_STROKE[q][road]; }
            let c = &CURVES[(r.class as usize - 1) * 5 + q];
            let v = r.speeds[road] as i64;
            ((c[0] * v + c[1]) * v + c[2]) as u64
        };
        let (j, t) = (fuel * 20 + q * 4, fuel * 5 + q);
        let x = run.x[if r.class == 3 && q == 0 { 15 } else { t }];
        let (mut grams, mut rests) = (0, run.total_rests[t]);
        let mut put = |j: usize, more: u64, rest: u64| {
            let mut s = run.rests[j] + rest;
            let mut g = run.grams[j] + more;
            if s >= BILLION { s -= BILLION; g += 1; }
            run.grams[j] = g;
            run.rests[j] = s;
            grams += more;
            rests += rest;
        };
        for road in 0..3 {
            let a = k * r.shares[road];
            let low = a % BILLION * e(road);
            put(j + road, a / BILLION * e(road) + low / BILLION, low % BILLION);
        }
        let f = if r.class == 5 { 0 } else { (e(0) * x + 500_000_000) / BILLION };
        put(j + 3, k * f / 10_000_000, k * f % 10_000_000 * 100);
        run.total_grams[t] += grams + rests / BILLION;
        run.total_rests[t] = rests % BILLION;
    }
    run.km[fuel] += k;
    run.count += 1;
    0
}

fn record_at(i: u64) -> Record {
    Record { class: i % 7 + 1, vehicles: i % 1000 + 1, km: i % 10000 + 1, shares: [40, 40, 20], speeds: [i % 121 + 10, i % 113 + 15, i % 101 + 20] }
}

fn main() {
    let fresh = open(120, &[-50, 0, 50, 100, 150, 200, 200, 200, 150, 100, 50, 0]);
    let mut run = fresh.clone();
    for _ in 0..400 {
        run = fresh.clone();
        for i in 0..5000 { add(&mut run, &record_at(i)); }
    }
    for j in 0..60 { println!("{} {}", run.grams[j], run.rests[j]); }
    for t in 0..15 { println!("{} {}", run.total_grams[t], run.total_rests[t]); }
}
