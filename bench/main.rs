//! Times the archive, in one run and on the same inputs, against (a) the plain reference of tests/differential and (b) the
//! same tuned by hand (tuned.rs). Every row is the best of many short repetitions, the three taken in turn, so that other
//! work on the machine does not show unless it never stops.
//!
//!     bench [PASSES]
//!     bench --rows     one pass, as lines `name, archive, (a), (b)` between tabs, for bench/against.py
//!
//! With `--cfg no_totals` it is linked with an archive of layout 6, whose runs store no totals: the declarations are others
//! (bench/run.sh makes them), and the stored totals of (a) and (b) are not compared with it.
mod areas;
mod balances;
mod by_value;
#[cfg_attr(not(no_totals), path = "../include/haldurap.rs")]
#[cfg_attr(no_totals, path = "../target/haldurap_other.rs")]
mod haldurap;
mod joins;
#[path = "../tests/differential/random.rs"]
mod random;
#[path = "../tests/differential/reference.rs"]
mod reference;
mod tuned;

use haldurap as c;
use random::Random;
use reference as plain;
use std::hint::black_box;
use std::time::Instant;

// ---- The same inputs for all three

fn c_head(h: &plain::Head) -> c::Head {
    let [first, last] = h.days.unwrap_or([0; 2]);
    c::Head { trip: h.trip, temps: h.temps, first, last }
}

fn tuned_head(h: &plain::Head) -> tuned::Head {
    tuned::Head { trip: h.trip, temps: h.temps, days: h.days }
}

fn c_record(r: &plain::Record) -> c::Record {
    let ([u, v, w], [a, b, d]) = (r.shares, r.speeds);
    c::Record {
        class: r.class,
        vehicles: r.vehicles,
        km: r.km,
        shares: c::Shares { urban: u, rural: v, highway: w },
        speeds: c::Speeds { urban: a, rural: b, highway: d },
    }
}

fn tuned_record(r: &plain::Record) -> tuned::Record {
    tuned::Record { class: r.class, vehicles: r.vehicles, km: r.km, shares: r.shares, speeds: r.speeds }
}

struct Inputs {
    heads: Vec<plain::Head>,
    records: Vec<plain::Record>,
    c_heads: Vec<c::Head>,
    c_records: Vec<c::Record>,
    tuned_heads: Vec<tuned::Head>,
    tuned_records: Vec<tuned::Record>,
}

fn inputs() -> Inputs {
    let mut r = Random(7);
    let heads: Vec<_> = (0..64).map(|_| random::undated_head(&mut r)).collect();
    // whole fleets with kilometres of every size, all classes, and no record that is refused
    let records: Vec<_> = (0..5000).map(|_| random::good_record(&mut r)).collect();
    Inputs {
        c_heads: heads.iter().map(c_head).collect(),
        tuned_heads: heads.iter().map(tuned_head).collect(),
        c_records: records.iter().map(c_record).collect(),
        tuned_records: records.iter().map(tuned_record).collect(),
        heads,
        records,
    }
}

/// Sheets of n records. Short ones are many, so that a processor cannot learn the branches of a single one by heart.
fn sheet_texts(inputs: &Inputs, n: usize) -> Vec<Vec<u8>> {
    let texts = if n == 0 { 64 } else { 1596 / n };
    let text = |i: usize| {
        let mut text = random::head_line(&inputs.heads[i % 64]);
        for record in &inputs.records[i * n..i * n + n] {
            text.extend(random::record_line(record));
        }
        text
    };
    (0..texts).map(text).collect()
}

/// The texts one after the other, without end.
fn next<'a>(texts: &'a [Vec<u8>], at: &mut usize) -> &'a [u8] {
    *at = if *at + 1 < texts.len() { *at + 1 } else { 0 };
    black_box(&texts[*at])
}

// ---- The calls as a program that is linked with a library makes them: none is drawn into the loop

#[inline(never)]
fn plain_add(run: &mut plain::Run, r: &plain::Record) -> u64 {
    run.add(r).err().unwrap_or(0)
}

#[inline(never)]
fn tuned_add(run: &mut tuned::Run, r: &tuned::Record) -> u64 {
    tuned::add(run, r)
}

// what else is handed in is known before the run, so that the compiler copies this once
#[inline(always)]
fn our_total(run: &c::Run, fuel: u64, quantity: u64) {
    let (run, fuel) = (black_box(run), black_box(fuel));
    let _ = black_box(c::haldurap_total(*run, fuel, quantity));
}

#[inline(never)]
fn plain_total(run: &plain::Run, fuel: u64, quantity: u64) -> u64 {
    run.total(fuel, quantity).unwrap_or(0)
}

#[inline(never)]
fn tuned_total(run: &tuned::Run, fuel: u64, quantity: u64) -> u64 {
    tuned::total(run, fuel, quantity).1
}

#[inline(never)]
fn plain_report(run: &plain::Run, buffer: &mut [u8]) -> usize {
    run.write_report(buffer).unwrap_or(0)
}

#[inline(never)]
fn tuned_report(run: &tuned::Run, buffer: &mut [u8]) -> usize {
    tuned::report(run, buffer).1
}

#[inline(never)]
fn plain_sheet(text: &[u8], buffer: &mut [u8]) -> usize {
    plain::write_sheet_report(text, buffer).unwrap_or(0)
}

#[inline(never)]
fn tuned_sheet(text: &[u8], buffer: &mut [u8]) -> usize {
    tuned::report_sheet(text, buffer).1
}

#[inline(never)]
fn plain_open(head: &plain::Head) -> plain::Run {
    plain::open(head).unwrap_or_default()
}

#[inline(never)]
fn tuned_open(head: &tuned::Head, run: &mut tuned::Run) -> u64 {
    *run = tuned::ZERO;
    tuned::open(head, run)
}

fn our_sheet(text: &[u8], buffer: &mut [u8]) -> usize {
    c::report_sheet(text, buffer).bytes
}

#[inline(never)]
fn plain_order(run: &plain::Run) -> bool {
    run.in_order()
}

#[inline(never)]
fn tuned_order(run: &tuned::Run) -> bool {
    tuned::in_order(run)
}

#[inline(never)]
fn plain_list(head: &plain::Head, numbers: &[u64]) -> plain::Listed {
    plain::add_list(head, numbers).expect("a list that is taken")
}

#[inline(never)]
fn tuned_list(head: &tuned::Head, numbers: &[u64], run: &mut tuned::Run) -> (u64, u64, usize, u64) {
    *run = tuned::ZERO;
    tuned::add_list(head, numbers, run)
}

// ---- Measuring

/// The best time of one operation in ns for each of three, taken in turn. A repetition is as many operations as take about
/// 50 microseconds, or one.
fn best(repetitions: usize, mut work: [&mut dyn FnMut(); 3]) -> [f64; 3] {
    let mut best = [f64::MAX; 3];
    let mut times = [1u32; 3];
    for i in 0..repetitions + 10 {
        for ((work, best), times) in work.iter_mut().zip(&mut best).zip(&mut times) {
            let start = Instant::now();
            for _ in 0..*times {
                work();
            }
            let each = start.elapsed().as_nanos() as f64 / *times as f64;
            *best = best.min(each);
            if i < 10 {
                *times = (50_000.0 / *best).clamp(1.0, 10_000.0) as u32;
                *best = f64::MAX;
            }
        }
    }
    best
}

/// A row: its name, the best time of each of three, and how many times (b) the archive may take.
struct Row {
    name: String,
    times: [f64; 3],
    most: f64,
}

impl Row {
    fn print(&self) {
        let Row { name, times: [ours, a, b], most } = self;
        let first = if ours > a { "SLOWER THAN (a), " } else { "" };
        let second = if *ours <= 1.2 * b {
            "within 1.2 of (b)".into()
        } else if *ours <= most * b {
            format!("within {most} of (b)")
        } else {
            format!("OVER {most} OF (b)")
        };
        println!("{name:<36}{ours:>12.1}{a:>12.1}{b:>12.1}{:>10.2}{:>10.2}  {first}{second}", ours / a, ours / b);
    }
}

/// Adds into a run up to 5,000: ns an add by position, in parts of 500, the best of each part.
fn adds(inputs: &Inputs, repetitions: usize) -> [[f64; 10]; 3] {
    let mut best = [[f64::MAX; 10]; 3];
    for _ in 0..repetitions {
        let mut answer = c::haldurap_open(inputs.c_heads[0]);
        for part in 0..10 {
            let start = Instant::now();
            let mut refused = 0;
            for r in &inputs.c_records[part * 500..part * 500 + 500] {
                answer = c::haldurap_add(answer.run, *r);
                refused |= answer.number;
            }
            best[0][part] = best[0][part].min(start.elapsed().as_nanos() as f64 / 500.0);
            assert_eq!(refused, 0);
        }
        let _ = black_box(answer);
        let mut run = plain_open(&inputs.heads[0]);
        for part in 0..10 {
            let start = Instant::now();
            let mut refused = 0;
            for r in &inputs.records[part * 500..part * 500 + 500] {
                refused |= plain_add(&mut run, r);
            }
            best[1][part] = best[1][part].min(start.elapsed().as_nanos() as f64 / 500.0);
            assert_eq!(refused, 0);
        }
        black_box(run);
        let mut run = tuned::ZERO;
        tuned_open(&inputs.tuned_heads[0], &mut run);
        for part in 0..10 {
            let start = Instant::now();
            let mut refused = 0;
            for r in &inputs.tuned_records[part * 500..part * 500 + 500] {
                refused |= tuned_add(&mut run, r);
            }
            best[2][part] = best[2][part].min(start.elapsed().as_nanos() as f64 / 500.0);
            assert_eq!(refused, 0);
        }
        black_box(run);
    }
    best
}

/// ns for each of n operations that are all taken.
fn each(n: usize, mut operation: impl FnMut(usize) -> u64) -> f64 {
    let start = Instant::now();
    let mut refused = 0;
    for i in 0..n {
        refused |= operation(i);
    }
    let time = start.elapsed().as_nanos() as f64 / n as f64;
    assert_eq!(refused, 0);
    time
}

/// The first record of each of 24 runs that were just opened (so many stay near the processor): ns an add.
fn first_adds(inputs: &Inputs, repetitions: usize) -> [f64; 3] {
    let mut best = [f64::MAX; 3];
    let fresh: Vec<c::Run> = inputs.c_heads[..24].iter().map(|head| c::haldurap_open(*head).run).collect();
    let ours = |i: usize| c::haldurap_add(*black_box(&fresh[i]), inputs.c_records[i]);
    for _ in 0..repetitions {
        let mut a: Vec<plain::Run> = inputs.heads[..24].iter().map(plain_open).collect();
        let mut b = vec![tuned::ZERO; 24];
        b.iter_mut().zip(&inputs.tuned_heads).for_each(|(run, head)| assert_eq!(tuned_open(head, run), 0));
        keep(&mut best, [
            each(24, |i| black_box(&ours(i)).number),
            each(24, |i| plain_add(&mut a[i], &inputs.records[i])),
            each(24, |i| tuned_add(&mut b[i], &inputs.tuned_records[i])),
        ]);
        assert!((0..24).all(|i| same_runs(&ours(i).run, &a[i], &b[i])), "the first records differ");
    }
    best
}

/// Opens 64 heads, whose runs must be the same: ns for one.
fn opening(heads: &[plain::Head], repetitions: usize) -> [f64; 3] {
    let ours: Vec<c::Head> = heads.iter().map(c_head).collect();
    let b: Vec<tuned::Head> = heads.iter().map(tuned_head).collect();
    let mut run = tuned::ZERO;
    for i in 0..heads.len() {
        let answer = c::haldurap_open(ours[i]);
        assert_eq!([answer.number, tuned_open(&b[i], &mut run)], [0; 2]);
        assert!(same_runs(&answer.run, &plain_open(&heads[i]), &run), "opened runs differ: {:?}", heads[i]);
    }
    let times = best(repetitions, [
        &mut || ours.iter().for_each(|h| { let _ = black_box(c::haldurap_open(*black_box(h))); }),
        &mut || heads.iter().for_each(|h| { black_box(plain_open(black_box(h))); }),
        &mut || b.iter().for_each(|h| { black_box(tuned_open(black_box(h), black_box(&mut run))); }),
    ]);
    times.map(|t| t / heads.len() as f64)
}

/// Dated heads: whole years, single days and what is between.
fn dated_heads() -> Vec<plain::Head> {
    let mut r = Random(366);
    (0..64).map(|_| random::dated_head(&mut r)).collect()
}

/// Sheets of dated heads, which are not timed: the same texts of all three.
fn compare_dated_sheets(inputs: &Inputs) {
    let [mut buffer, mut buffer_a, mut buffer_b] = [[0u8; c::REPORT_BYTES]; 3];
    for (head, record) in dated_heads().iter().zip(&inputs.records) {
        let text = [random::head_line(head), random::record_line(record)].concat();
        let lengths = [our_sheet(&text, &mut buffer), plain_sheet(&text, &mut buffer_a), tuned_sheet(&text, &mut buffer_b)];
        assert!(same_texts(lengths, &buffer, &buffer_a, &buffer_b), "sheets differ: {head:?}");
    }
}

/// Whether three runs are the same.
fn same_runs(ours: &c::Run, a: &plain::Run, b: &tuned::Run) -> bool {
    let (sums, totals) = (a.sums.as_flattened().as_flattened(), a.totals.as_flattened());
    #[cfg(not(no_totals))]
    let same_totals = (ours.total_grams, ours.total_rests) == (b.total_grams, b.total_rests);
    #[cfg(no_totals)]
    let same_totals = true;
    (ours.trip, ours.x, ours.count, ours.km, ours.grams, ours.rests) == (b.trip, b.x, b.count, b.km, b.grams, b.rests)
        && same_totals
        && (0..60).all(|i| sums[i] == plain::Sum { grams: b.grams[i], rest: b.rests[i] })
        && (0..15).all(|i| totals[i] == plain::Sum { grams: b.total_grams[i], rest: b.total_rests[i] })
}

/// Whether three texts are the same.
fn same_texts(lengths: [usize; 3], ours: &[u8], a: &[u8], b: &[u8]) -> bool {
    lengths == [lengths[0]; 3] && a == b && ours == a
}

/// Full runs of all three, which must be the same run.
fn full_runs(inputs: &Inputs) -> (c::Run, plain::Run, tuned::Run) {
    let mut ours = c::haldurap_open(inputs.c_heads[0]).run;
    let mut a = plain_open(&inputs.heads[0]);
    let mut b = tuned::ZERO;
    tuned_open(&inputs.tuned_heads[0], &mut b);
    for i in 0..5000 {
        let answer = c::haldurap_add(ours, inputs.c_records[i]);
        ours = answer.run;
        assert_eq!([answer.number, plain_add(&mut a, &inputs.records[i]), tuned_add(&mut b, &inputs.tuned_records[i])], [0; 3]);
    }
    assert!(same_runs(&ours, &a, &b), "the three runs differ");
    (ours, a, b)
}

/// Keeps the better of two.
fn keep<const N: usize>(kept: &mut [f64; N], times: [f64; N]) {
    kept.iter_mut().zip(times).for_each(|(kept, time)| *kept = kept.min(time));
}

const LENGTHS: [usize; 10] = [0, 1, 10, 50, 100, 200, 400, 800, 1200, 1596];

/// The best times: of sheets by length, adds by position, the first add, a total, a report, opening without and with dates, the
/// test of order, a record of a list, a total by value, balances by digits, joins, the calls of areas.
struct Best {
    sheets: [[f64; 3]; LENGTHS.len()],
    adds: [[f64; 10]; 3],
    first: [f64; 3],
    total: [f64; 3],
    report: [f64; 3],
    open: [f64; 3],
    dated: [f64; 3],
    order: [f64; 3],
    list: [f64; 3],
    by_value: by_value::Best,
    balances: balances::Best,
    joins: joins::Best,
    areas: areas::Best,
}

impl Best {
    fn rows(&self) -> Vec<Row> {
        let row = |name: &str, times| Row { name: name.into(), times, most: 1.5 };
        let sheet = |n: usize| self.sheets[LENGTHS.iter().position(|&l| l == n).unwrap()];
        let mut rows = vec![
            row("sheet to report, 1 record", sheet(1)),
            row("sheet to report, 100 records", sheet(100)),
            row("sheet to report, 1,596 records", sheet(1596)),
            row("add, up to 5,000", self.adds.map(|p| p.iter().sum::<f64>() / 10.0)),
            row("first record of a run", self.first),
            row("total of a full run", self.total),
            row("report of a full run", self.report),
            row("opening", self.open),
            row("opening, dated", self.dated),
            row("order of a full run", self.order),
            row("list of 5,000, each record", self.list),
        ];
        rows.extend(self.by_value.rows());
        rows.extend(self.balances.rows());
        rows.extend(self.joins.rows());
        rows.extend(self.areas.rows());
        rows
    }
}

/// Measures everything once more.
fn pass(best_of: &mut Best, inputs: &Inputs, runs: &(c::Run, plain::Run, tuned::Run), repetitions: usize) {
    let (ours, a, b) = runs;
    let mut buffers = [[0u8; c::REPORT_BYTES]; 3];
    let [buffer, buffer_a, buffer_b] = &mut buffers;
    for (n, kept) in LENGTHS.into_iter().zip(&mut best_of.sheets) {
        let texts = sheet_texts(inputs, n);
        for text in &texts {
            let lengths = [our_sheet(text, buffer), plain_sheet(text, buffer_a), tuned_sheet(text, buffer_b)];
            assert!(same_texts(lengths, buffer, buffer_a, buffer_b), "sheets differ at {n} records");
        }
        let [mut i, mut j, mut k] = [0; 3];
        let times = best(repetitions, [
            &mut || { black_box(our_sheet(next(&texts, &mut i), black_box(buffer))); },
            &mut || { black_box(plain_sheet(next(&texts, &mut j), black_box(buffer_a))); },
            &mut || { black_box(tuned_sheet(next(&texts, &mut k), black_box(buffer_b))); },
        ]);
        keep(kept, times);
    }

    for (kept, times) in best_of.adds.iter_mut().zip(adds(inputs, repetitions)) {
        keep(kept, times);
    }
    keep(&mut best_of.first, first_adds(inputs, repetitions));

    let places: Vec<(u64, u64)> = (1..=3).flat_map(|f| (1..=5).map(move |q| (f, q))).collect();
    let times = best(repetitions, [
        &mut || places.iter().for_each(|&(f, q)| our_total(ours, f, q)),
        &mut || places.iter().for_each(|&(f, q)| { black_box(plain_total(black_box(a), black_box(f), q)); }),
        &mut || places.iter().for_each(|&(f, q)| { black_box(tuned_total(black_box(b), black_box(f), q)); }),
    ]);
    keep(&mut best_of.total, times.map(|t| t / 15.0));

    let lengths = [c::report(*ours, buffer).bytes, plain_report(a, buffer_a), tuned_report(b, buffer_b)];
    assert!(same_texts(lengths, buffer, buffer_a, buffer_b), "the three reports differ");
    let times = best(repetitions, [
        &mut || { let (run, buffer) = (black_box(ours), black_box(&mut *buffer)); let _ = black_box(c::report(*run, buffer)); },
        &mut || { black_box(plain_report(black_box(a), black_box(buffer_a))); },
        &mut || { black_box(tuned_report(black_box(b), black_box(buffer_b))); },
    ]);
    keep(&mut best_of.report, times);

    keep(&mut best_of.open, opening(&inputs.heads, repetitions));
    keep(&mut best_of.dated, opening(&dated_heads(), repetitions));

    let times = best(repetitions, [
        &mut || { black_box(c::haldurap_in_order(*black_box(ours))); },
        &mut || { black_box(plain_order(black_box(a))); },
        &mut || { black_box(tuned_order(black_box(b))); },
    ]);
    keep(&mut best_of.order, times);

    let numbers: Vec<u64> = inputs.c_records.iter().flat_map(|r| r.numbers()).collect();
    let mut run = tuned::ZERO;
    let listed = c::add_list(inputs.c_heads[0], &numbers);
    let theirs = plain_list(&inputs.heads[0], &numbers);
    let tuned = tuned_list(&inputs.tuned_heads[0], &numbers, &mut run);
    assert!((listed.number, listed.taken, listed.place, listed.refused) == (0, 5000, 0, 0) && listed.run == *ours, "the list differs");
    assert!((theirs.taken, theirs.refused) == (5000, None) && theirs.run == *a && tuned == (0, 5000, 0, 0) && run == *b, "the lists differ");
    let times = best(repetitions, [
        &mut || { let _ = black_box(c::add_list(*black_box(&inputs.c_heads[0]), black_box(&numbers))); },
        &mut || { black_box(plain_list(black_box(&inputs.heads[0]), black_box(&numbers))); },
        &mut || { black_box(tuned_list(black_box(&inputs.tuned_heads[0]), black_box(&numbers), black_box(&mut run))); },
    ]);
    keep(&mut best_of.list, times.map(|t| t / 5000.0));

    best_of.by_value.pass(runs, repetitions);
    best_of.balances.pass(runs, repetitions);
    best_of.joins.pass(inputs, repetitions);
    best_of.areas.pass(inputs, repetitions);
}

fn load() -> String {
    std::fs::read_to_string("/proc/loadavg").unwrap_or_default().split(' ').take(3).collect::<Vec<_>>().join(" ")
}

fn main() {
    let argument = std::env::args().nth(1);
    let rows_alone = argument.as_deref() == Some("--rows");
    let passes: usize = if rows_alone { 1 } else { argument.map_or(6, |n| n.parse().expect("PASSES")) };
    let inputs = inputs();
    let runs = full_runs(&inputs);
    compare_dated_sheets(&inputs);
    let before = load();
    let mut b = Best {
        sheets: [[f64::MAX; 3]; LENGTHS.len()],
        adds: [[f64::MAX; 10]; 3],
        first: [f64::MAX; 3],
        total: [f64::MAX; 3],
        report: [f64::MAX; 3],
        open: [f64::MAX; 3],
        dated: [f64::MAX; 3],
        order: [f64::MAX; 3],
        list: [f64::MAX; 3],
        by_value: by_value::Best::new(),
        balances: balances::Best::new(),
        joins: joins::Best::new(),
        areas: areas::Best::new(),
    };
    for _ in 0..passes {
        pass(&mut b, &inputs, &runs, 100);
    }
    if rows_alone {
        for Row { name, times: [ours, plain, tuned], .. } in b.rows() {
            println!("{name}\t{ours}\t{plain}\t{tuned}");
        }
        return;
    }
    println!("load before: {before}");
    println!("load after: {}", load());
    println!("ns for one operation, the best of {passes} passes of 100 repetitions; (a) plain reference, (b) tuned by hand\n");
    println!("{:<36}{:>12}{:>12}{:>12}{:>10}{:>10}", "", "archive", "(a)", "(b)", "to (a)", "to (b)");
    b.rows().iter().for_each(Row::print);
    let verdict = if b.balances.stops_early() { "fewer digits take less time" } else { "FEWER DIGITS DO NOT TAKE LESS TIME" };
    println!("\nbalances of 6, 7, 9 and 12 digits by the archive: {verdict}");

    println!("\nadds by position in the run, ns an add");
    for part in 0..10 {
        let p = b.adds.map(|p| p[part]);
        println!("{:<36}{:>12.1}{:>12.1}{:>12.1}{:>10.2}{:>10.2}", format!("{} to {}", part * 500 + 1, part * 500 + 500), p[0], p[1], p[2], p[0] / p[1], p[0] / p[2]);
    }
    println!("\nsheets by length, ns a record beyond what the head alone takes (the first records bring the lines of the report too)");
    let head = b.sheets[0];
    println!("{:<36}{:>12.1}{:>12.1}{:>12.1}", "the head alone, ns", head[0], head[1], head[2]);
    for (n, times) in LENGTHS.into_iter().zip(b.sheets).skip(1) {
        let each: Vec<f64> = (0..3).map(|i| (times[i] - head[i]) / n as f64).collect();
        println!("{n:<36}{:>12.1}{:>12.1}{:>12.1}{:>10.2}{:>10.2}", each[0], each[1], each[2], each[0] / each[1], each[0] / each[2]);
    }
    // the early stop is what no contract can promise
    if !b.balances.stops_early() {
        std::process::exit(1);
    }
}
