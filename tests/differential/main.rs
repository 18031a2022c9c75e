//! Holds the archive, through its C interface, against the plain implementation in reference.rs: the same
//! random and boundary inputs to both, and every value, every byte and every lent number compared. Prints what was tried by
//! number, and how many differences there were; exits 1 on any.
//!
//!     differential [--small] [--seed N]
//!
//! --small tries a hundredth of it, for valgrind.
mod areas;
mod digits;
#[path = "../../include/haldurap.rs"]
mod haldurap;
mod joins;
mod periods;
mod random;
mod reference;

use haldurap as c;
use random::Random;
use reference as plain;
use std::fmt::Debug;

// ---- The same values on both sides

fn c_head(head: &plain::Head) -> c::Head {
    assert_ne!(head.days, Some([0; 2]), "in C days 0 and 0 are none");
    let [first, last] = head.days.unwrap_or([0; 2]);
    c::Head { trip: head.trip, temps: head.temps, first, last }
}

fn c_record(r: &plain::Record) -> c::Record {
    let ([u, v, w], [a, b, d]) = (r.shares, r.speeds);
    c::Record {
        class: r.class,
        vehicles: r.vehicles,
        km: r.km,
        shares: c::Shares { urban: u, rural: v, highway: w },
        speeds: c::Speeds { urban: a, rural: b, highway: d },
    }
}

fn c_run(run: &plain::Run) -> c::Run {
    let (sums, totals) = (run.sums.as_flattened().as_flattened(), run.totals.as_flattened());
    c::Run {
        trip: run.trip,
        x: [run.x.as_flattened(), &[run.x_class_3]].concat().try_into().unwrap(),
        count: run.count,
        km: run.km,
        grams: std::array::from_fn(|i| sums[i].grams),
        rests: std::array::from_fn(|i| sums[i].rest),
        total_grams: std::array::from_fn(|i| totals[i].grams),
        total_rests: std::array::from_fn(|i| totals[i].rest),
    }
}

fn plain_run(run: &c::Run) -> plain::Run {
    let mut r = plain::Run { trip: run.trip, x_class_3: run.x[15], count: run.count, km: run.km, ..plain::Run::default() };
    r.x.as_flattened_mut().copy_from_slice(&run.x[..15]);
    for (i, sum) in r.sums.as_flattened_mut().as_flattened_mut().iter_mut().enumerate() {
        *sum = plain::Sum { grams: run.grams[i], rest: run.rests[i] };
    }
    for (i, total) in r.totals.as_flattened_mut().iter_mut().enumerate() {
        *total = plain::Sum { grams: run.total_grams[i], rest: run.total_rests[i] };
    }
    r
}

const WORDS: usize = 171;
/// Where the grams and the rests begin, and those of the totals.
const GRAMS: usize = 21;
const RESTS: usize = 81;
const TOTAL_GRAMS: usize = 141;
const TOTAL_RESTS: usize = 156;

/// Word i of a run: 0 trip, 1 to 16 x, 17 count, 18 to 20 km, 21 to 80 grams, 81 to 140 rests, 141 to 155 grams and 156 to 170 rests of
/// the totals.
fn word(run: &mut c::Run, i: usize) -> &mut u64 {
    match i {
        0 => &mut run.trip,
        1..=16 => &mut run.x[i - 1],
        17 => &mut run.count,
        18..=20 => &mut run.km[i - 18],
        GRAMS..RESTS => &mut run.grams[i - GRAMS],
        RESTS..TOTAL_GRAMS => &mut run.rests[i - RESTS],
        TOTAL_GRAMS..TOTAL_RESTS => &mut run.total_grams[i - TOTAL_GRAMS],
        _ => &mut run.total_rests[i - TOTAL_RESTS],
    }
}

/// The run with each total made that of its four kinds, which were changed: nothing is tried but the kinds.
fn settled(run: c::Run) -> c::Run {
    let mut run = plain_run(&run);
    run.settle();
    c_run(&run)
}

/// Words of total i of a run in order, broken in each way: one gram more and less, one billionth more and less, one gram in the rest, so
/// that it is not below its limit, the carry of the four rests lost or left in the rest, and what is the same if it wraps at 2^64.
fn broken_totals(run: &c::Run, i: usize) -> Vec<(u64, u64)> {
    let (grams, rest) = (run.total_grams[i], run.total_rests[i]);
    let of = |billionths: u128| ((billionths / 1_000_000_000) as u64, (billionths % 1_000_000_000) as u64);
    let exact = grams as u128 * 1_000_000_000 + rest as u128;
    let alone: u64 = run.grams[4 * i..4 * i + 4].iter().sum();
    let rests: u64 = run.rests[4 * i..4 * i + 4].iter().sum();
    let mut ways = vec![of(exact + 1_000_000_000), of(exact + 1), (alone, rest), (alone, rests), (grams + (1 << 55), rest)];
    ways.extend([(grams, rest + 1), (grams + 1, rest.wrapping_sub(1_000_000_000)), (grams, rest + (1 << 32)), (u64::MAX, u64::MAX)]);
    if exact > 0 {
        ways.push(of(exact - 1));
    }
    if grams > 0 {
        ways.extend([(grams - 1, rest), (grams - 1, rest + 1_000_000_000)]);
    }
    ways.retain(|&way| way != (grams, rest));
    ways
}

/// The run with total i of these grams and this rest.
fn with_total(run: &c::Run, i: usize, (grams, rest): (u64, u64)) -> c::Run {
    let mut run = *run;
    (run.total_grams[i], run.total_rests[i]) = (grams, rest);
    run
}

/// The largest value of word i in a run with this count, the other words being 0 but for the total.
fn limit(i: usize, count: u64) -> u64 {
    match i {
        0 => 200,
        1..=16 => 4_900_000_000,
        17 => 5000,
        18..=20 => 1_000_000_000 * count,
        GRAMS..RESTS => 1_000_000_000_000 * count,
        RESTS..TOTAL_GRAMS => 999_999_999,
        _ => unreachable!("a total has no limit but its kinds"),
    }
}

// ---- Counting

/// None, and the numbers of refusals.
const NUMBERS: usize = 23;

const CALLS: [&str; 26] = [
    "layout", "open", "add", "total", "urban", "rural", "highway", "cold", "balance", "co2", "so2", "lead", "map_row",
    "figure_urban", "figure_rural", "figure_highway", "figure_cold", "report", "sheet", "report_sheet", "add_list", "in_order",
    "open_areas", "add_area", "area_run", "join",
];
const LAYOUT: usize = 0;
const OPEN: usize = 1;
const ADD: usize = 2;
const TOTAL: usize = 3;
const KINDS: usize = 4;
const BALANCE: usize = 8;
const CO2: usize = 9;
const SO2: usize = 10;
const LEAD: usize = 11;
const MAP_ROW: usize = 12;
const FIGURES: usize = 13;
const REPORT: usize = 17;
const SHEET: usize = 18;
const REPORT_SHEET: usize = 19;
const ADD_LIST: usize = 20;
const IN_ORDER: usize = 21;
const OPEN_AREAS: usize = 22;
const ADD_AREA: usize = 23;
const AREA_RUN: usize = 24;
const JOIN: usize = 25;

struct Held {
    /// By call and number.
    tried: [[u64; NUMBERS]; CALLS.len()],
    not_given: u64,
    buffers: u64,
    /// Runs out of order, and those of them by a total alone.
    out_of_order: u64,
    broken_totals: u64,
    /// Adds of classes 3 and 2 beside each other, by season.
    seasons: [u64; 3],
    /// Records in lists, and the first refused ones by number.
    listed: u64,
    passed_over: [u64; NUMBERS],
    /// Sheets by the number beside their text, and how often that text had no room.
    texts: [u64; NUMBERS],
    no_room: [u64; NUMBERS],
    edits: [[u64; NUMBERS]; random::EDITS.len()],
    areas: areas::Tried,
    digits: digits::Tried,
    periods: periods::Tried,
    joins: joins::Tried,
    /// Totals held against exact sums.
    near: u64,
    differences: u64,
}

impl Held {
    /// Counts one answer, and compares it with what the reference says.
    fn same<T: PartialEq + Debug>(&mut self, call: usize, number: u64, ours: T, theirs: T, input: impl FnOnce() -> String) {
        self.tried[call][number as usize] += 1;
        if ours != theirs {
            self.differ(|| format!("in {}: {}\n  archive   {ours:?}\n  reference {theirs:?}", CALLS[call], input()));
        }
    }

    /// Counts a difference, and shows the first twenty.
    fn differ(&mut self, what: impl FnOnce() -> String) {
        self.differences += 1;
        if self.differences <= 20 {
            println!("DIFFERENCE {}", what());
        }
    }

    fn of(&self, call: usize) -> u64 {
        self.tried[call].iter().sum()
    }
}

fn number_of<T>(r: &Result<T, u64>) -> u64 {
    match r {
        Ok(_) => 0,
        Err(n) => *n,
    }
}

fn grams(r: &Result<u64, u64>) -> c::GramsAnswer {
    c::GramsAnswer { number: number_of(r), grams: r.unwrap_or(0) }
}

// ---- Opening and adding

/// Opens both ways.
fn open(held: &mut Held, head: &plain::Head) -> Option<(c::Run, plain::Run)> {
    let ours = c::haldurap_open(c_head(head));
    let theirs = plain::open(head);
    let run = theirs.clone().unwrap_or_default();
    held.same(OPEN, number_of(&theirs), ours, c::RunAnswer { number: number_of(&theirs), run: c_run(&run) }, || format!("{head:?}"));
    theirs.ok().map(|run| (ours.run, run))
}

/// Adds both ways: each add gets the run that the add before it gave back, refused or not.
fn add(held: &mut Held, ours: &mut c::Run, theirs: &mut plain::Run, record: &plain::Record) -> u64 {
    let before = *ours;
    let answer = c::haldurap_add(before, c_record(record));
    let number = number_of(&theirs.add(record));
    held.same(ADD, number, answer, c::RunAnswer { number, run: c_run(theirs) }, || format!("{record:?} to {before:?}"));
    *ours = answer.run;
    number
}

/// The archive's totals of a run against the exact sums of its list, or of its history: whether a total of a fuel and a quantity (from
/// 0) is near.
fn ask_distance(held: &mut Held, ours: c::Run, is_near: impl Fn(usize, usize, u64) -> bool) {
    for (fuel, quantity) in (0..3).flat_map(|fuel| (0..5).map(move |quantity| (fuel, quantity))) {
        let answer = c::haldurap_total(ours, fuel as u64 + 1, quantity as u64 + 1);
        held.near += 1;
        if answer.number != 0 || !is_near(fuel, quantity, answer.grams) {
            held.differ(|| format!("{answer:?} of fuel {} quantity {} is too far from the exact sum, in {ours:?}", fuel + 1, quantity + 1));
        }
    }
}

fn any_record(r: &mut Random) -> plain::Record {
    if r.one_in(8) { random::damaged_record(r) } else { random::good_record(r) }
}

// ---- Lists of records

fn numbers(record: &plain::Record) -> [u64; 9] {
    let ([u, v, w], [a, b, d]) = (record.shares, record.speeds);
    [record.class, record.vehicles, record.km, u, v, w, a, b, d]
}

/// Adds a list both ways: number, how many were taken, place and number of the first refused one, every word of the run.
fn ask_list(held: &mut Held, head: &plain::Head, numbers: &[u64]) {
    let kept = numbers.to_vec();
    let theirs = plain::add_list(head, numbers);
    let number = number_of(&theirs);
    held.listed += numbers.len() as u64 / 9;
    let wanted = match theirs {
        Ok(listed) => {
            let (place, refused) = listed.refused.unwrap_or((0, 0));
            held.passed_over[refused as usize] += 1;
            c::ListAnswer { number, taken: listed.taken, place, refused, run: c_run(&listed.run) }
        }
        Err(_) => c::ListAnswer { number, taken: 0, place: 0, refused: 0, run: c_run(&plain::Run::default()) },
    };
    let input = || format!("{head:?}, {} numbers {:?}", numbers.len(), &numbers[..numbers.len().min(90)]);
    held.same(ADD_LIST, number, c::add_list(c_head(head), numbers), wanted, input);
    if numbers != kept {
        held.differ(|| "the list was changed".into());
    }
}

/// A list of n records, one in so many of them damaged (0: none).
fn list(r: &mut Random, n: usize, damaged: u64) -> Vec<u64> {
    let mut list = Vec::with_capacity(9 * n);
    for _ in 0..n {
        let bad = damaged > 0 && r.one_in(damaged);
        list.extend(numbers(&if bad { random::damaged_record(r) } else { random::good_record(r) }));
    }
    list
}

fn lists(held: &mut Held, r: &mut Random, times: u64, small: bool) {
    for _ in 0..times {
        let n = match r.below(50) {
            0 => r.from_to(20, 200),
            _ => r.from_to(0, 12),
        } as usize;
        let damaged = r.of(&[0, 1, 2, 8]);
        let mut numbers = list(r, n, damaged);
        // now and then not of whole records: cut, or some numbers more
        match r.below(6) {
            0 => numbers.truncate(r.place(numbers.len() + 1)),
            1 => numbers.extend(0..r.from_to(1, 8)),
            _ => {}
        }
        let head = if r.one_in(4) { random::damaged_head(r) } else { random::good_head(r) };
        ask_list(held, &head, &numbers);
    }
    // every length up to three records, with a head that is taken and one that is not
    let numbers = list(r, 3, 0);
    for n in 0..=numbers.len() {
        ask_list(held, &plain::Head::year(10, [-300; 12]), &numbers[..n]);
        ask_list(held, &plain::Head::year(9, [401; 12]), &numbers[..n]);
        ask_list(held, &plain::Head::year(200, [401; 12]), &numbers[..n]);
        // 10 before the head's own numbers; a day that is none, days in a wrong order, days that are taken
        for days in [[20_260_431, 20_260_501], [20_260_501, 20_260_430], [20_260_430, 20_260_501]] {
            ask_list(held, &plain::Head { days: Some(days), ..plain::Head::year(120, [100; 12]) }, &numbers[..n]);
        }
    }
    // one refused record of each number, at the first, a middle and the last place, and only such ones
    let good = numbers_of_example();
    for bad in bad_records() {
        for (before, behind) in [(0, 4), (2, 2), (4, 0), (0, 0)] {
            let mut numbers = good.repeat(before);
            numbers.extend(bad);
            numbers.extend(good.repeat(behind));
            ask_list(held, &plain::Head::year(120, [100; 12]), &numbers);
        }
        for other in bad_records() {
            ask_list(held, &plain::Head::year(120, [100; 12]), &[good, bad, other, good].concat());
        }
    }
    // full runs: the last record that is taken, the first that is not, and those behind it
    for n in [4999, 5000, 5001, 5002, 5100] {
        for damaged in if small { &[0][..] } else { &[0, 3, 1000, 0, 8][..] } {
            let numbers = list(r, n, *damaged);
            let head = random::good_head(r);
            ask_list(held, &head, &numbers);
        }
        ask_list(held, &plain::Head::year(120, [100; 12]), &good.repeat(n));
        // a refused record before the run is full: its place, and one record more is taken
        let mut numbers = good.repeat(n);
        numbers[9 * 2500 + 8] = 131;
        ask_list(held, &plain::Head::year(120, [100; 12]), &numbers);
        numbers.pop();
        ask_list(held, &plain::Head::year(120, [100; 12]), &numbers);
    }
    // behind a full run a refused record is told by its own number, and not by 9
    for bad in bad_records() {
        ask_list(held, &plain::Head::year(120, [100; 12]), &[good.repeat(5000), bad.to_vec(), good.to_vec()].concat());
    }
    // the largest sums that a list can give
    let most = [6, 1_000_000, 1000, 100, 0, 0, 130, 130, 130];
    ask_list(held, &plain::Head::year(10, [-300; 12]), &most.repeat(5001));
}

fn numbers_of_example() -> [u64; 9] {
    [2, 1000, 10_000, 40, 40, 20, 20, 60, 100]
}

/// One record for each of 3 to 8.
fn bad_records() -> [[u64; 9]; 6] {
    let with = |i: usize, value| {
        let mut record = numbers_of_example();
        record[i] = value;
        record
    };
    [with(0, 8), with(1, 0), with(2, 1_000_000), with(1, 100_001), with(5, 19), with(8, 131)]
}

// ---- CO of class 3

/// Which X a class and a quantity (from 0) use, as a place in the archive's run.
fn x_place(class: u64, quantity: usize) -> usize {
    if class == 3 && quantity == 0 { 15 } else { plain::fuel_of(class) * 5 + quantity }
}

/// Classes 3 and 2 beside each other under heads of every season, one after the other and as a list.
fn class_3(held: &mut Held, r: &mut Random, times: u64) {
    for i in 0..times {
        let season = i as usize % 3;
        let head = random::head_of_season(r, season);
        let (ours, theirs) = open(held, &head).expect("a head in range");
        let record = random::good_record(r);
        for classes in [&[3][..], &[2], &[3, 2], &[2, 3, 3]] {
            let (mut ours, mut theirs) = (ours, theirs.clone());
            for &class in classes {
                held.seasons[season] += 1;
                assert_eq!(add(held, &mut ours, &mut theirs, &plain::Record { class, ..record }), 0);
            }
            for quantity in 1..=5 {
                ask_place(held, ours, &theirs, 1, quantity);
            }
        }
        let records: Vec<u64> = (0..r.from_to(1, 8)).flat_map(|_| numbers(&plain::Record { class: r.of(&[2, 3]), ..random::good_record(r) })).collect();
        ask_list(held, &head, &records);
        for place in [0, 15, r.place(16)] {
            one_x(held, r, ours, place);
        }
    }
}

/// One X of a run changed by hand: whatever the class, an add gives the same run but for that X and the cold sums that go by it, with
/// their totals.
fn one_x(held: &mut Held, r: &mut Random, run: c::Run, place: usize) {
    let mut other = run;
    other.x[place] = r.of(&[0, 1, 1_000_000_000, 4_899_999_999, 4_900_000_000]);
    for class in 1..=7 {
        let record = plain::Record { class, ..random::good_record(r) };
        let [first, mut second] = [run, other].map(|mut run| {
            let mut theirs = plain_run(&run);
            add(held, &mut run, &mut theirs, &record);
            run
        });
        second.x[place] = first.x[place];
        for quantity in (0..5).filter(|&quantity| class != 5 && x_place(class, quantity) == place) {
            let sum = plain::fuel_of(class) * 20 + quantity * 4 + plain::COLD;
            (second.grams[sum], second.rests[sum]) = (first.grams[sum], first.rests[sum]);
            (second.total_grams[sum / 4], second.total_rests[sum / 4]) = (first.total_grams[sum / 4], first.total_rests[sum / 4]);
        }
        if first != second {
            held.differ(|| format!("x[{place}] moves more than it may in an add of class {class}: {record:?} to {run:?}"));
        }
    }
}

/// Every class on every road at every speed: by adds, as a list and as a sheet. How many runs were added to.
fn every_factor(held: &mut Held, r: &mut Random) -> u64 {
    let head = plain::Head::year(120, [100; 12]);
    for class in 1..=7 {
        let mut records = Vec::new();
        for (road, speed) in (0..3).flat_map(|road| (10..=130).map(move |speed| (road, speed))) {
            let (mut shares, mut speeds) = ([0; 3], [140 - speed; 3]);
            (shares[road], speeds[road]) = (100, speed);
            // no two with the same vehicles, so that speeds exchanged show in the sums of them all
            let vehicles = 1 + records.len() as u64 * 2700;
            records.push(plain::Record { class, vehicles, km: 1000, shares, speeds });
        }
        let (mut ours, mut theirs) = open(held, &head).expect("a head in range");
        let mut text = random::head_line(&head);
        for record in &records {
            assert_eq!(add(held, &mut ours, &mut theirs, record), 0);
            text.extend(random::record_line(record));
        }
        ask_list(held, &head, &records.iter().flat_map(numbers).collect::<Vec<_>>());
        ask_sheet(held, r, &text, 0);
    }
    7
}

// ---- Questions

/// Whether the run is in order.
fn ask_order(held: &mut Held, ours: c::Run, run: &plain::Run) {
    let ordered = run.in_order();
    held.same(IN_ORDER, if ordered { 0 } else { 16 }, c::haldurap_in_order(ours), ordered as u64, || format!("{ours:?}"));
}

type GramsCall = extern "C" fn(c::Run, u64, u64) -> c::GramsAnswer;
type FigureCall = extern "C" fn(c::Run, u64, u64) -> c::FigureAnswer;

fn kinds() -> [GramsCall; 4] {
    [c::haldurap_urban, c::haldurap_rural, c::haldurap_highway, c::haldurap_cold]
}

fn figures() -> [FigureCall; 4] {
    [c::haldurap_figure_urban, c::haldurap_figure_rural, c::haldurap_figure_highway, c::haldurap_figure_cold]
}

/// Total, the four kinds, the map's row and its four figures, of one fuel and quantity. Floats are compared bit by bit.
fn ask_place(held: &mut Held, ours: c::Run, run: &plain::Run, fuel: u64, quantity: u64) {
    let input = || format!("fuel {fuel} quantity {quantity} of {ours:?}");
    let total = run.total(fuel, quantity);
    held.same(TOTAL, number_of(&total), c::haldurap_total(ours, fuel, quantity), grams(&total), input);
    for kind in 0..4 {
        let printed = run.kind(fuel, quantity, kind);
        held.same(KINDS + kind, number_of(&printed), kinds()[kind](ours, fuel, quantity), grams(&printed), input);
    }
    let row = run.map_row(fuel, quantity);
    let a = c::haldurap_map_row(ours, fuel, quantity);
    let floats = [a.urban, a.rural, a.highway, a.cold].map(f64::to_bits);
    held.same(MAP_ROW, number_of(&row), (a.number, floats), (number_of(&row), row.unwrap_or([0.0; 4]).map(f64::to_bits)), input);
    for kind in 0..4 {
        let figure = run.figure(fuel, quantity, kind);
        let a = figures()[kind](ours, fuel, quantity);
        let number = number_of(&figure);
        let given = figure.unwrap_or(None);
        held.not_given += (number == 0 && given.is_none()) as u64;
        let theirs = (number, given.is_some() as u64, given.unwrap_or(0.0).to_bits());
        held.same(FIGURES + kind, number, (a.number, a.given, a.grams.to_bits()), theirs, input);
    }
}

fn ask_balance(held: &mut Held, ours: c::Run, run: &plain::Run, fuel: u64, quantity: u64, sold: u64) {
    let b = run.balance(fuel, quantity, sold);
    let (k, digits, grams) = b.unwrap_or((0, 0, 0));
    let theirs = c::BalanceAnswer { number: number_of(&b), k, digits, grams };
    held.same(BALANCE, number_of(&b), c::haldurap_balance(ours, fuel, quantity, sold), theirs, || {
        format!("fuel {fuel} quantity {quantity} sold {sold} of {ours:?}")
    });
}

fn ask_from_fuel(held: &mut Held, ours: c::Run, run: &plain::Run, fuel: u64, content: u64) {
    let input = || format!("fuel {fuel} content {content} of {ours:?}");
    let theirs = run.co2(fuel, content);
    held.same(CO2, number_of(&theirs), c::haldurap_co2(ours, fuel, content), grams(&theirs), input);
    let theirs = run.so2(fuel, content);
    held.same(SO2, number_of(&theirs), c::haldurap_so2(ours, fuel, content), grams(&theirs), input);
    let theirs = run.lead(fuel, content);
    held.same(LEAD, number_of(&theirs), c::haldurap_lead(ours, fuel, content), grams(&theirs), input);
}

/// A report into a buffer of this length, all its bytes compared.
fn ask_report(held: &mut Held, r: &mut Random, ours: c::Run, run: &plain::Run, length: usize) {
    let mut buffer = r.bytes(length).into_boxed_slice();
    let mut expected = buffer.clone();
    let theirs = run.write_report(&mut expected);
    let a = c::report(ours, &mut buffer);
    held.buffers += 1;
    let wanted = c::LengthAnswer { number: number_of(&theirs), bytes: theirs.unwrap_or(0) };
    held.same(REPORT, wanted.number, (a, &buffer), (wanted, &expected), || format!("{length} bytes of buffer for {ours:?}"));
}

const FUELS: [u64; 8] = [0, 1, 2, 3, 4, 256 + 1, (1 << 32) + 1, u64::MAX];
const QUANTITIES: [u64; 10] = [0, 1, 2, 3, 4, 5, 6, 256 + 5, (1 << 32) + 5, u64::MAX];

/// Every question.
fn ask_all(held: &mut Held, r: &mut Random, ours: c::Run, run: &plain::Run) {
    ask_order(held, ours, run);
    for fuel in 1..=3 {
        for quantity in 1..=5 {
            ask_place(held, ours, run, fuel, quantity);
        }
    }
    for _ in 0..3 {
        let (fuel, quantity) = (r.of(&FUELS), r.of(&QUANTITIES));
        ask_place(held, ours, run, fuel, quantity);
        ask_balance(held, ours, run, fuel, quantity, 1000);
    }
    for fuel in 1..=3 {
        // around the S at which k comes to 500,000, 1,000,000 and 1,500,000, and the ends of S
        let used = run.total(fuel, 5).unwrap_or(0);
        for share in [1, 2, 3] {
            let s = used / 2_000_000 * share;
            for sold in s.saturating_sub(1)..=s + 2 {
                ask_balance(held, ours, run, fuel, r.from_to(1, 5), sold);
            }
        }
        for sold in [0, 1, 999_999_999, 1_000_000_000, u64::MAX, used, r.scaled(0, 999_999_999)] {
            ask_balance(held, ours, run, fuel, r.from_to(1, 5), sold);
        }
        for quantity in 1..=5 {
            let low = used / 2_000_000;
            let sold = r.from_to(low, low * 3 + 1);
            ask_balance(held, ours, run, fuel, quantity, sold);
        }
        for content in [0, 1, 1000, 1001, 1800, 4000, 4001, 10_000, 10_001, u64::MAX, r.from_to(0, 1000), r.from_to(0, 10_000)] {
            ask_from_fuel(held, ours, run, fuel, content);
        }
    }
    let fuel = r.of(&FUELS);
    let content = r.of(&[0, 500, 1001, 4001, 10_001, u64::MAX]);
    ask_from_fuel(held, ours, run, fuel, content);
    let exact = run.report().map_or(0, |text| text.len());
    for length in [exact, exact.saturating_sub(1), exact + 1, exact + r.place(200), r.place(exact + 1), 0] {
        ask_report(held, r, ours, run, length);
    }
}

// ---- Runs out of order

/// A run with a word beyond its limit, or with a total that is not that of its kinds: 16 from every call, and nothing changed.
fn ask_out_of_order(held: &mut Held, r: &mut Random, bad: c::Run, what: &dyn Fn() -> String) {
    let run = plain_run(&bad);
    assert!(!run.in_order(), "{}", what());
    held.out_of_order += 1;
    ask_order(held, bad, &run);
    let (fuel, quantity) = (r.of(&FUELS), r.of(&QUANTITIES));
    let record = any_record(r);
    let (mut ours, mut theirs) = (bad, run.clone());
    let n = add(held, &mut ours, &mut theirs, &record);
    if n != 16 || ours != bad || theirs != run {
        held.differ(|| format!("a run out of order was not given back as it came: {}", what()));
    }
    ask_place(held, bad, &run, r.from_to(1, 3), r.from_to(1, 5));
    ask_place(held, bad, &run, fuel, quantity);
    ask_balance(held, bad, &run, r.from_to(1, 3), r.from_to(1, 5), 1000);
    ask_balance(held, bad, &run, fuel, quantity, r.of(&[0, 1000, u64::MAX]));
    ask_from_fuel(held, bad, &run, fuel, r.of(&[0, 100, u64::MAX]));
    for length in [0, 388, c::REPORT_BYTES + 9] {
        ask_report(held, r, bad, &run, length);
    }
}

fn out_of_order(held: &mut Held, r: &mut Random, run: &c::Run) {
    for i in 0..TOTAL_GRAMS {
        let most = limit(i, run.count);
        let values = [most + 1, most + 1 + r.scaled(0, 1 << 40), 1 << 63, u64::MAX];
        for value in values.iter().chain(if i == 0 { &[0u64, 9][..] } else { &[][..] }) {
            let mut bad = *run;
            *word(&mut bad, i) = *value;
            ask_out_of_order(held, r, settled(bad), &|| format!("word {i} is {value}"));
        }
        // a sum at its limit with a rest, and rests of whole sums below
        if (GRAMS..RESTS).contains(&i) {
            let mut bad = *run;
            *word(&mut bad, i) = most;
            *word(&mut bad, i + 60) = r.of(&[1, 999_999_999]);
            ask_out_of_order(held, r, settled(bad), &|| format!("word {i} is {most} with a rest"));
        }
        // exactly at the limit: in order, and both sides say so
        let mut edge = *run;
        *word(&mut edge, i) = most;
        if (GRAMS..RESTS).contains(&i) {
            *word(&mut edge, i + 60) = 0;
        }
        let edge = settled(edge);
        let edge_run = plain_run(&edge);
        ask_order(held, edge, &edge_run);
        ask_place(held, edge, &edge_run, r.from_to(1, 3), r.from_to(1, 5));
        // a kind that changed without its total
        if i >= GRAMS {
            let mut bad = *run;
            *word(&mut bad, i) ^= 1;
            held.broken_totals += 1;
            ask_out_of_order(held, r, bad, &|| format!("word {i} is another, its total is not"));
        }
    }
    // fewer records than the sums and kilometres need
    let mut bad = *run;
    while plain_run(&bad).in_order() && bad.count > 0 {
        bad.count /= 2;
    }
    if !plain_run(&bad).in_order() {
        ask_out_of_order(held, r, bad, &|| "count too small for the sums".into());
    }
}

/// Each total of a run broken in each way; the same with its rest at both ends of its range, and with none to three grams in the four
/// rests.
fn totals_out_of_order(held: &mut Held, r: &mut Random, run: &c::Run) {
    let below = (1_000_000_000_000 * run.count).saturating_sub(1);
    for i in 0..15 {
        let mut runs = vec![*run];
        // without a record every sum is 0
        for rests in [[0; 4], [249_999_999, 250_000_000, 250_000_000, 250_000_000], [250_000_000; 4], [1, 0, 999_999_999, 999_999_999], [999_999_999; 4]] {
            let mut other = *run;
            other.grams[4 * i..4 * i + 4].iter_mut().for_each(|grams| *grams = (*grams).min(below));
            other.rests[4 * i..4 * i + 4].copy_from_slice(&rests);
            runs.extend((run.count > 0).then(|| settled(other)));
        }
        for good in runs {
            let good_run = plain_run(&good);
            assert!(good_run.in_order());
            ask_order(held, good, &good_run);
            ask_place(held, good, &good_run, i as u64 / 5 + 1, i as u64 % 5 + 1);
            for way in broken_totals(&good, i) {
                held.broken_totals += 1;
                ask_out_of_order(held, r, with_total(&good, i, way), &|| format!("total {i} is {way:?}"));
            }
        }
        // the total of another place, and one as much above as another below
        let other = (i + 1 + r.place(14)) % 15;
        let [own, others] = [i, other].map(|i| (run.total_grams[i], run.total_rests[i]));
        if own != others {
            held.broken_totals += 1;
            ask_out_of_order(held, r, with_total(&with_total(run, i, others), other, own), &|| format!("totals {i} and {other} exchanged"));
        }
        if others.0 > 0 {
            held.broken_totals += 1;
            let bad = with_total(&with_total(run, i, (own.0 + 1, own.1)), other, (others.0 - 1, others.1));
            ask_out_of_order(held, r, bad, &|| format!("a gram of total {other} in total {i}"));
        }
    }
}

// ---- Sheets

fn ask_sheet(held: &mut Held, r: &mut Random, text: &[u8], edit: usize) {
    let kept = text.to_vec();
    let theirs = plain::sheet(text);
    let (number, line) = theirs.as_ref().err().map_or((0, 0), |b| (b.number, b.line));
    let input = || format!("{} ({}): {:?}", random::EDITS[edit], text.len(), String::from_utf8_lossy(&text[..text.len().min(1000)]));
    let a = c::sheet(text);
    let run = theirs.unwrap_or_default();
    held.edits[edit][number as usize] += 1;
    held.same(SHEET, number, a, c::SheetAnswer { number, line, run: c_run(&run) }, input);
    let wanted = plain::sheet_report(text);
    let exact = wanted.len();
    let short = exact.saturating_sub(1);
    // the sheet's own number and line stand beside the text's length whether it has room or not
    let (sheet_number, sheet_line) = plain::sheet_verdict(text);
    held.texts[sheet_number as usize] += 1;
    for length in [exact, short, exact + 1 + r.place(100), r.place(exact + 1)] {
        let mut buffer = r.bytes(length).into_boxed_slice();
        let mut expected = buffer.clone();
        let theirs = plain::write_sheet_report(text, &mut expected);
        let a = c::report_sheet(text, &mut buffer);
        held.buffers += 1;
        held.no_room[sheet_number as usize] += theirs.is_err() as u64;
        let wanted = c::TextAnswer { number: number_of(&theirs), bytes: theirs.unwrap_or(0), sheet_number, sheet_line };
        held.same(REPORT_SHEET, wanted.number, (a, &buffer), (wanted, &expected), || format!("{length} bytes of buffer, {}", input()));
    }
    if text != kept {
        held.differ(|| "the text was changed".into());
    }
}

fn sheets(held: &mut Held, r: &mut Random, times: u64) {
    for i in 0..times {
        let edit = i as usize % random::EDITS.len();
        let n = match r.below(100) {
            0 => r.from_to(100, 300),
            1..=8 => r.from_to(20, 60),
            _ => r.from_to(0, 7),
        };
        let text = random::sheet(r, n as usize, edit);
        ask_sheet(held, r, &text, edit);
    }
    // the longest that the program reads, one record more, and full runs
    for n in [1595, 1596, 1597, 4999, 5000, 5001, 5002, 5100] {
        let edits = if times > 100_000 { &[0, 1, 2, 5, 7, 8, 9, 10, 15][..] } else { &[0, 8][..] };
        for &edit in edits {
            let text = random::sheet(r, n, edit);
            ask_sheet(held, r, &text, edit);
        }
    }
    // exactly 65,536 bytes and one more, by bytes after the last LF
    for n in [65_535, 65_536, 65_537] {
        let mut text = random::sheet(r, 1596, 0);
        text.resize(n, b' ');
        ask_sheet(held, r, &text, 8);
    }
    // every length of the front of a sheet, in both forms of its first line
    for head in [random::undated_head(r), random::dated_head(r)] {
        let text = random::sheet_under(r, &head, 2);
        for n in 0..=text.len() {
            ask_sheet(held, r, &text[..n], 6);
        }
    }
    // every byte value at every place of a sheet, and at those of the days in a first line
    let places = if times > 100_000 { [0..148, 60..84] } else { [100..104, 65..67] };
    for (places, head) in places.into_iter().zip([random::undated_head(r), random::dated_head(r)]) {
        let text = random::sheet_under(r, &head, 2);
        for (i, b) in places.flat_map(|i| (0..=255).map(move |b| (i, b))) {
            let mut text = text.clone();
            text[i] = b;
            ask_sheet(held, r, &text, 2);
        }
    }
}

// ---- The numbers that SPECIFICATION, "Figures", prints

fn printed_numbers(held: &mut Held) {
    let head = plain::Head::year(120, [100; 12]);
    let record = plain::Record { class: 2, vehicles: 1000, km: 10_000, shares: [40, 40, 20], speeds: [20, 60, 100] };
    let (mut ours, mut theirs) = open(held, &head).expect("the head of the figures");
    assert_eq!(add(held, &mut ours, &mut theirs, &record), 0);
    let report = " 1  CO           6038000           6118000           6939000           8037182          27132182
 1 NOX           1605600           1464800           1030000             94987           4195387
 1 VOC            538400            362400            541200            477776           1919776
 1  FC         441208000         248984000         148060000         123983860         962235860
";
    assert_eq!(theirs.report().unwrap(), report);
    assert_eq!(plain::cold_share(120, 100), 29_580_000);
    assert_eq!((theirs.x[0], theirs.x_class_3), ([532_440_000, 23_664_000, 354_960_000, 0, 112_404_000], 383_356_800));
    assert_eq!([20, 60, 100].map(|v| plain::hot_factor(2, 0, 0, v)), [15_095_000, 15_295_000, 34_695_000]);
    assert_eq!(theirs.balance(1, 1, 1000), Ok((1_039_246, 12, 28_197_012)));
    assert_eq!(theirs.balance(1, 1, 481), Err(13));
    assert_eq!(theirs.write_report(&mut [0; 387]), Err(14));
    assert_eq!(theirs.write_report(&mut [0; 388]), Ok(388));
    let mut used = theirs.clone();
    used.sums[0][4] = [plain::Sum { grams: 13_825_400, rest: 0 }, plain::Sum::default(), plain::Sum::default(), plain::Sum::default()];
    used.settle();
    assert_eq!(used.co2(1, 1800), Ok(44_011_000));
    used.sums[0][4][0].grams = 1_000_000;
    assert_eq!(used.lead(1, 2), Err(16));
    used.settle();
    assert_eq!(used.lead(1, 2), Ok(2));
    let sheet = [random::head_line(&head), b" 2   1000  10000  40  40  20  20  60 100\n".to_vec()].concat();
    assert_eq!(plain::sheet_report(&sheet), report);
    assert_eq!(plain::sheet_report(b""), "REFUSED 10     1\n");
    let mut r = Random(1);
    ask_all(held, &mut r, ours, &theirs);
    ask_sheet(held, &mut r, &sheet, 0);
    // the same T in every month: whatever the period, the same X
    for days in [[20_000_229; 2], [20_260_515, 20_261_020], [20_000_101, 20_001_231], [21_000_101, 21_001_231]] {
        let dated = plain::Head { days: Some(days), ..head };
        assert_eq!(open(held, &dated).expect("a period").1.x, theirs.x);
    }
    // X of CO of class 3 is of the sum itself: 72/100 of the rounded X would be one more, or one less
    for (trip, t, gasoline, class_3) in [(10, -297, 4_834_859_126, 3_481_098_570), (11, -75, 2_326_636_406, 1_675_178_213)] {
        let (_, theirs) = open(held, &plain::Head::year(trip, [t; 12])).expect("a head in range");
        assert_eq!((theirs.x[0][0], theirs.x_class_3), (gasoline, class_3));
    }
}

fn main() {
    let arguments: Vec<String> = std::env::args().skip(1).collect();
    let small = arguments.iter().any(|a| a == "--small");
    let seed = arguments.iter().position(|a| a == "--seed").map_or(20_261_115, |i| arguments[i + 1].parse().expect("--seed N"));
    let part = if small { 100 } else { 1 };
    let mut r = Random(seed);
    let mut held = Held {
        tried: [[0; NUMBERS]; CALLS.len()],
        not_given: 0,
        buffers: 0,
        out_of_order: 0,
        broken_totals: 0,
        seasons: [0; 3],
        listed: 0,
        passed_over: [0; NUMBERS],
        texts: [0; NUMBERS],
        no_room: [0; NUMBERS],
        edits: [[0; NUMBERS]; random::EDITS.len()],
        areas: areas::Tried::default(),
        digits: digits::Tried::default(),
        periods: periods::Tried::default(),
        joins: joins::Tried::default(),
        near: 0,
        differences: 0,
    };
    println!("seed {seed}{}", if small { ", a hundredth" } else { "" });

    let layout = c::haldurap_layout();
    let wanted = c::LayoutAnswer { version: c::LAYOUT, size: size_of::<c::Run>() as u64 };
    held.same(LAYOUT, 0, layout, wanted, || "layout".into());
    printed_numbers(&mut held);

    // heads, most of them damaged
    for _ in 0..100_000 / part {
        let head = if r.one_in(4) { random::good_head(&mut r) } else { random::damaged_head(&mut r) };
        open(&mut held, &head);
    }

    // runs of random length: most short, some long, some full and beyond
    let (mut runs, mut full) = (0, 0);
    for i in 0..22_000 / part {
        let length = match i % 440 {
            0 => r.from_to(5000 + 700, 5000 + 1200),
            1..=8 => r.from_to(100, 1000),
            _ => r.from_to(0, 50),
        };
        let head = random::good_head(&mut r);
        let Some((mut ours, mut theirs)) = open(&mut held, &head) else { continue };
        // now and then one class only, so that a single fuel's sums grow
        let class = r.one_in(4).then(|| r.from_to(1, 7));
        let mut tally = plain::Tally::of(&head);
        for _ in 0..length {
            let mut record = any_record(&mut r);
            if let Some(class) = class {
                record.class = class;
            }
            if add(&mut held, &mut ours, &mut theirs, &record) == 0 {
                tally.feed(&record);
            }
        }
        ask_distance(&mut held, ours, |fuel, quantity, grams| tally.is_near(fuel, quantity, grams));
        runs += 1;
        full += (theirs.count == 5000) as u64;
        ask_all(&mut held, &mut r, ours, &theirs);
    }
    // the largest sums that adds can give: 5,000 records at the limits of K, E and X
    let classes: &[u64] = if small { &[6] } else { &[1, 2, 3, 4, 5, 6, 7] };
    for &class in classes {
        let days = r.one_in(2).then(|| random::period(&mut r));
        let head = plain::Head { days, ..plain::Head::year(10, [-300; 12]) };
        let (mut ours, mut theirs) = open(&mut held, &head).expect("a head in range");
        let record = plain::Record { class, vehicles: 1_000_000, km: 1000, shares: [100, 0, 0], speeds: [r.of(&[10, 130]), 10, 130] };
        let mut tally = plain::Tally::of(&head);
        for _ in 0..5001 {
            if add(&mut held, &mut ours, &mut theirs, &record) == 0 {
                tally.feed(&record);
            }
        }
        ask_distance(&mut held, ours, |fuel, quantity, grams| tally.is_near(fuel, quantity, grams));
        (runs, full) = (runs + 1, full + 1);
        ask_all(&mut held, &mut r, ours, &theirs);
    }

    // runs in order that no list of adds gave, with values up to the limits, and a few adds to each
    let mut made = 0;
    for _ in 0..20_000 / part {
        let mut theirs = random::any_run_in_order(&mut r);
        assert!(theirs.in_order());
        let mut ours = c_run(&theirs);
        ask_all(&mut held, &mut r, ours, &theirs);
        for _ in 0..3 {
            let record = any_record(&mut r);
            add(&mut held, &mut ours, &mut theirs, &record);
        }
        ask_report(&mut held, &mut r, ours, &theirs, c::REPORT_BYTES);
        made += 1;
    }

    // runs out of order, word by word
    for _ in 0..if small { 1 } else { 60 } {
        let run = c_run(&random::any_run_in_order(&mut r));
        out_of_order(&mut held, &mut r, &run);
        totals_out_of_order(&mut held, &mut r, &run);
    }

    class_3(&mut held, &mut r, 9_000 / part);
    sheets(&mut held, &mut r, 205_000 / part);
    lists(&mut held, &mut r, 60_000 / part, small);
    runs += every_factor(&mut held, &mut r);
    areas::areas(&mut held, &mut r, small);
    digits::digits(&mut held, &mut r, 12_000 / part);
    periods::periods(&mut held, &mut r, 15_000 / part, small);
    joins::joins(&mut held, &mut r, small);

    println!("runs opened and added to: {runs}, of them full: {full}; runs in order made up: {made}");
    println!("runs out of order: {}, of them by a total alone: {}", held.out_of_order, held.broken_totals);
    println!("adds: {}; sheets: {}; buffers compared whole: {}; figures not given: {}", held.of(ADD), held.of(SHEET), held.buffers, held.not_given);
    println!("lists: {}, with {} records", held.of(ADD_LIST), held.listed);
    let [warm, cold, mixed] = held.seasons;
    println!("adds of classes 3 and 2 beside each other: {warm} in warm, {cold} in cold, {mixed} in mixed years");
    println!("balances by the digits worked: {}", held.digits.text());
    let periods::Tried { written, days, heads } = held.periods;
    println!("numbers like a day: {written}, of them days: {days}; dated heads at random: {heads}");
    println!("totals held against exact sums: {}", held.near);
    let areas::Tried { lists, made, out_of_order, limits } = &held.areas;
    println!(
        "areas: {} opened, {} adds; lists until every area was full: {lists}; in order made up: {made}; out of order: {out_of_order}",
        held.of(OPEN_AREAS),
        held.of(ADD_AREA)
    );
    println!("joins: {}; {}", held.of(JOIN), held.joins.text());
    println!("\nanswers by number:");
    print!("{:>16}", "");
    (0..NUMBERS).for_each(|n| print!("{n:>9}"));
    println!();
    for (call, tried) in held.tried.iter().enumerate().filter(|(_, t)| t.iter().any(|&n| n > 0)) {
        print!("{:>16}", CALLS[call]);
        tried.iter().for_each(|n| print!("{:>9}", if *n == 0 { "-".into() } else { n.to_string() }));
        println!();
    }
    let by_number = |tried: &[u64; NUMBERS]| (0..NUMBERS).filter(|&n| tried[n] > 0).map(|n| format!("{n}: {}", tried[n])).collect::<Vec<_>>().join(", ");
    let [met, passed] = limits;
    println!("\nlimits of areas by number, met:  {}", by_number(met));
    println!("and passed:  {}", by_number(passed));
    let [met, passed] = held.joins.limits;
    println!("limits of joins by number, met:  {}; and passed:  {}", by_number(&met), by_number(&passed));
    println!("joins of histories, as their tallies decide, by number:  {}", by_number(&held.joins.of_histories));
    println!("\nlists by the number of their first refused record:  {}", by_number(&held.passed_over));
    println!("texts of sheets by the sheet's own number:  {}", by_number(&held.texts));
    println!("of them without room (14) by the sheet's own number:  {}", by_number(&held.no_room));
    println!("\nsheets by what was done to them, and by number:");
    for (edit, tried) in held.edits.iter().enumerate() {
        println!("{:>40}  {}", random::EDITS[edit], by_number(tried));
    }
    println!("\ndifferences: {}", held.differences);
    std::process::exit((held.differences > 0) as i32);
}
