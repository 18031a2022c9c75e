//! Compares size and offsets of every struct of include/haldurap.rs with what the archive itself reads and writes; see
//! layout.c for how.
#[path = "../../include/haldurap.rs"]
mod haldurap;
use haldurap::*;
use std::mem::{offset_of, transmute};

struct Check {
    done: u32,
    failed: bool,
}

impl Check {
    fn same<T: PartialEq + std::fmt::Debug>(&mut self, found: T, wanted: T, what: &str) {
        self.done += 1;
        if found != wanted {
            println!("layout.rs: {what} is {found:?}, not {wanted:?}");
            self.failed = true;
        }
    }
}

const HEAD: Head = Head { trip: 120, temps: [100; 12], first: 0, last: 0 };
const RECORD: Record = Record {
    class: 2,
    vehicles: 1000,
    km: 10000,
    shares: Shares { urban: 40, rural: 40, highway: 20 },
    speeds: Speeds { urban: 20, rural: 60, highway: 100 },
};

const ZEROS: Run = Areas::zeros().runs[0];
const RUN_WORDS: usize = 171;

macro_rules! struct_is {
    ($c:ident, $type:ident, $size:expr, $($field:ident $offset:expr),*) => {
        $c.same(size_of::<$type>(), $size, concat!("size of ", stringify!($type)));
        // a field ends where the next one begins: there is no padding
        let mut end = 0;
        let value: $type = unsafe { std::mem::zeroed() };
        $($c.same(offset_of!($type, $field), $offset, concat!(stringify!($type), ".", stringify!($field)));
          $c.same($offset, end, concat!("end of the field before ", stringify!($type), ".", stringify!($field)));
          end += size_of_val(&value.$field);)*
        $c.same(end, $size, concat!("end of ", stringify!($type)));
    };
}

/// The sizes and offsets that haldurap.h documents.
fn as_documented(c: &mut Check) {
    struct_is!(c, Head, 120, trip 0, temps 8, first 104, last 112);
    struct_is!(c, Shares, 24, urban 0, rural 8, highway 16);
    struct_is!(c, Speeds, 24, urban 0, rural 8, highway 16);
    struct_is!(c, Record, 72, class 0, vehicles 8, km 16, shares 24, speeds 48);
    struct_is!(c, Run, 1368, trip 0, x 8, count 136, km 144, grams 168, rests 648, total_grams 1128, total_rests 1248);
    struct_is!(c, Areas, 21896, runs 0, common 21888);
    c.same(size_of::<Areas>(), 8 * AREAS_NUMBERS, "AREAS_NUMBERS");
    struct_is!(c, RunAnswer, 1376, number 0, run 8);
    struct_is!(c, GramsAnswer, 16, number 0, grams 8);
    struct_is!(c, BalanceAnswer, 32, number 0, k 8, digits 16, grams 24);
    struct_is!(c, LengthAnswer, 16, number 0, bytes 8);
    struct_is!(c, TextAnswer, 32, number 0, bytes 8, sheet_number 16, sheet_line 24);
    struct_is!(c, ListAnswer, 1400, number 0, taken 8, place 16, refused 24, run 32);
    struct_is!(c, MapRowAnswer, 40, number 0, urban 8, rural 16, highway 24, cold 32);
    struct_is!(c, FigureAnswer, 24, number 0, given 8, grams 16);
    struct_is!(c, SheetAnswer, 1384, number 0, line 8, run 16);
    struct_is!(c, LayoutAnswer, 16, version 0, size 8);
}

/// The bytes that a call writes to the place of its answer: which of them are the same whatever stood there before.
fn written(c: &mut Check, size: usize, what: &str, call: impl Fn(*mut u8) -> *mut u8) {
    let (mut zeros, mut ones) = ([0u8; 4096], [255u8; 4096]);
    call(zeros.as_mut_ptr());
    call(ones.as_mut_ptr());
    let places: Vec<usize> = (0..4096).filter(|&i| zeros[i] == ones[i]).collect();
    c.same(places, (0..size).collect(), &format!("bytes that {what} writes"));
}

type Question<T> = extern "C" fn(Run, u64, u64) -> T;

#[cfg(all(target_arch = "x86_64", unix))]
fn sizes_written(c: &mut Check, run: Run) {
    // The place of an answer of more than 16 bytes is a first, hidden argument.
    type Raw<T> = extern "C" fn(*mut u8, T) -> *mut u8;
    let raw: Raw<Head> = unsafe { transmute(haldurap_open as extern "C" fn(Head) -> RunAnswer) };
    written(c, size_of::<RunAnswer>(), "open", |p| raw(p, HEAD));
    let raw: extern "C" fn(*mut u8, Run, Record) -> *mut u8 =
        unsafe { transmute(haldurap_add as extern "C" fn(Run, Record) -> RunAnswer) };
    written(c, size_of::<RunAnswer>(), "add", |p| raw(p, run, RECORD));
    let raw: extern "C" fn(*mut u8, Run, Run) -> *mut u8 = unsafe { transmute(haldurap_join as extern "C" fn(Run, Run) -> RunAnswer) };
    for trip in [120, 121] {
        written(c, size_of::<RunAnswer>(), "join", |p| raw(p, run, Run { trip, ..run }));
    }
    let raw: extern "C" fn(*mut u8, Run, u64, u64, u64) -> *mut u8 =
        unsafe { transmute(haldurap_balance as extern "C" fn(Run, u64, u64, u64) -> BalanceAnswer) };
    written(c, size_of::<BalanceAnswer>(), "balance", |p| raw(p, run, 1, 1, 1000));
    type RawQuestion = extern "C" fn(*mut u8, Run, u64, u64) -> *mut u8;
    let raw: RawQuestion = unsafe { transmute(haldurap_map_row as Question<MapRowAnswer>) };
    written(c, size_of::<MapRowAnswer>(), "map_row", |p| raw(p, run, 1, 1));
    let figures: [Question<FigureAnswer>; 4] = [haldurap_figure_urban, haldurap_figure_rural, haldurap_figure_highway, haldurap_figure_cold];
    for figure in figures {
        let raw: RawQuestion = unsafe { transmute(figure) };
        written(c, size_of::<FigureAnswer>(), "figure", |p| raw(p, run, 1, 1));
    }
    let raw: extern "C" fn(*mut u8, *const u8, usize) -> *mut u8 =
        unsafe { transmute(haldurap_sheet as unsafe extern "C" fn(*const u8, usize) -> SheetAnswer) };
    written(c, size_of::<SheetAnswer>(), "sheet", |p| raw(p, b"x".as_ptr(), 1));
    type Text = unsafe extern "C" fn(*const u8, usize, *mut u8, usize) -> TextAnswer;
    let raw: extern "C" fn(*mut u8, *const u8, usize, *mut u8, usize) -> *mut u8 = unsafe { transmute(haldurap_report_sheet as Text) };
    for room in [16, 17] {
        written(c, size_of::<TextAnswer>(), "report_sheet", |p| raw(p, b"x".as_ptr(), 1, [0; 17].as_mut_ptr(), room));
    }
    type List = unsafe extern "C" fn(Head, *const u64, usize) -> ListAnswer;
    let raw: extern "C" fn(*mut u8, Head, *const u64, usize) -> *mut u8 = unsafe { transmute(haldurap_add_list as List) };
    for length in [8, 9] {
        written(c, size_of::<ListAnswer>(), "add_list", |p| raw(p, HEAD, RECORD.numbers().as_ptr(), length));
    }
    type AreaRun = unsafe extern "C" fn(*const u64, usize, u64) -> RunAnswer;
    let raw: extern "C" fn(*mut u8, *const u64, usize, u64) -> *mut u8 = unsafe { transmute(haldurap_area_run as AreaRun) };
    let mut areas = Areas::zeros();
    c.same(open_areas(&mut areas, HEAD), 0, "open_areas");
    for area in [15, 16] {
        written(c, size_of::<RunAnswer>(), "area_run", |p| raw(p, (&raw const areas).cast(), AREAS_NUMBERS, area));
    }
}

#[cfg(not(all(target_arch = "x86_64", unix)))]
fn sizes_written(_: &mut Check, _: Run) {}

/// Each field of a head and a record: a bad value is refused with its own number, a good one has its own effect.
fn inputs(c: &mut Check, run: Run) {
    const HIGH: u64 = 1 << 32; // beyond the lower half of a word
    c.same(haldurap_open(Head { trip: 9, ..HEAD }).number, 1, "Head.trip");
    c.same(haldurap_open(Head { trip: HIGH + 120, ..HEAD }).number, 1, "Head.trip");
    for i in 0..12 {
        let mut head = HEAD;
        head.temps[i] = -301;
        c.same(haldurap_open(head).number, 2, "Head.temps");
        head.temps[i] = HIGH as i64 + 100;
        c.same(haldurap_open(head).number, 2, "Head.temps");
    }
    let fields: [(&str, u64, u64, fn(&mut Record) -> &mut u64); 9] = [
        ("Record.class", 0, 3, |r| &mut r.class),
        ("Record.vehicles", 0, 4, |r| &mut r.vehicles),
        ("Record.km", 0, 5, |r| &mut r.km),
        ("Shares.urban", 41, 7, |r| &mut r.shares.urban),
        ("Shares.rural", 41, 7, |r| &mut r.shares.rural),
        ("Shares.highway", 21, 7, |r| &mut r.shares.highway),
        ("Speeds.urban", 9, 8, |r| &mut r.speeds.urban),
        ("Speeds.rural", 9, 8, |r| &mut r.speeds.rural),
        ("Speeds.highway", 9, 8, |r| &mut r.speeds.highway),
    ];
    for (what, wrong, number, field) in fields {
        let mut record = RECORD;
        *field(&mut record) = wrong;
        c.same(haldurap_add(run, record).number, number, what);
        let mut record = RECORD;
        *field(&mut record) += HIGH;
        c.same(haldurap_add(run, record).number, number, what);
    }
    // the whole distance on one road: CO of class 2 at 20, 60 and 100 km/h
    for (road, grams) in [15_095_000, 15_295_000, 34_695_000].into_iter().enumerate() {
        let share = |i| if i == road { 100 } else { 0 };
        let record = Record { shares: Shares { urban: share(0), rural: share(1), highway: share(2) }, ..RECORD };
        c.same(haldurap_add(run, record).run.grams[road], grams, "grams of one road");
    }
}

/// The run with each total made the sum of its four kinds, so that nothing but its other values is tried.
fn settled(mut run: Run) -> Run {
    for i in 0..15 {
        let rests: u64 = run.rests[4 * i..4 * i + 4].iter().sum();
        run.total_grams[i] = run.grams[4 * i..4 * i + 4].iter().sum::<u64>() + rests / 1_000_000_000;
        run.total_rests[i] = rests % 1_000_000_000;
    }
    run
}

/// Each total: it goes with the four kinds of its place and with no other, to the gram and to the billionth, its rest below 10^9.
fn totals(c: &mut Check, fresh: Run) {
    for i in 0..15 {
        let (fuel, quantity) = (i as u64 / 5 + 1, i as u64 % 5 + 1);
        for j in 0..60 {
            let mut run = fresh;
            (run.grams[j], run.rests[j], run.total_grams[i], run.total_rests[i]) = (7, 5, 7, 5);
            let wanted = if j / 4 == i { GramsAnswer { number: 0, grams: 7 } } else { GramsAnswer { number: RUN_ORDER, grams: 0 } };
            c.same(haldurap_total(run, fuel, quantity), wanted, "Run.total_grams, Run.total_rests");
        }
        // four rests of 300,000,000: a gram and 200,000,000; of 250,000,000: a gram and no rest
        for (rest, total_rest) in [(300_000_000, 200_000_000), (250_000_000, 0)] {
            let mut good = fresh;
            good.grams[4 * i..4 * i + 4].fill(1000);
            good.rests[4 * i..4 * i + 4].fill(rest);
            (good.total_grams[i], good.total_rests[i]) = (4001, total_rest);
            c.same((in_order(good), haldurap_total(good, fuel, quantity).number), (true, 0), "Run.total_grams, Run.total_rests");
            for (grams, rest) in [
                (4002, total_rest), (4000, total_rest), (4001, total_rest + 1), (4000, total_rest + 999_999_999), (4000, total_rest + 1_000_000_000),
                (4001, total_rest.wrapping_sub(1)),
            ] {
                let mut bad = good;
                (bad.total_grams[i], bad.total_rests[i]) = (grams, rest);
                c.same((in_order(bad), haldurap_total(bad, fuel, quantity).number), (false, RUN_ORDER), "a total that is broken");
            }
        }
    }
}

/// Each word of a run: its limit tells the field, and its effect tells the place in it.
fn runs(c: &mut Check, fresh: Run) {
    let kinds: [Question<GramsAnswer>; 4] = [haldurap_urban, haldurap_rural, haldurap_highway, haldurap_cold];
    let fresh = Run { count: 3, ..fresh };
    let mut limit = |what: &str, most: u64, field: &dyn Fn(&mut Run) -> &mut u64| {
        let mut run = fresh;
        *field(&mut run) = most;
        c.same(haldurap_total(settled(run), 1, 1).number, 0, what);
        *field(&mut run) = most + 1;
        c.same(haldurap_total(settled(run), 1, 1).number, 16, what);
    };
    limit("Run.trip", 200, &|r| &mut r.trip);
    limit("Run.count", 5000, &|r| &mut r.count);
    (0..16).for_each(|i| limit("Run.x", 4_900_000_000, &|r| &mut r.x[i]));
    (0..3).for_each(|i| limit("Run.km", 3_000_000_000, &|r| &mut r.km[i]));
    (0..60).for_each(|i| limit("Run.grams", 3_000_000_000_000, &|r| &mut r.grams[i]));
    (0..60).for_each(|i| limit("Run.rests", 999_999_999, &|r| &mut r.rests[i]));

    totals(c, fresh);
    for i in 0..60u64 {
        // a sum alone in the run is printed at its fuel, quantity and kind, and nowhere else
        let mut run = fresh;
        (run.grams[i as usize], run.rests[i as usize]) = (1000 + i, 500_000_000);
        for j in 0..60 {
            let printed = kinds[j as usize % 4](settled(run), j / 20 + 1, j / 4 % 5 + 1).grams;
            c.same(printed, if i == j { 1001 + i } else { 0 }, "Run.grams, Run.rests");
        }
    }
    for i in 0..16 {
        // X of 1: the cold factor is E, so the cold grams are those of the whole distance at the urban speed, of each class and
        // quantity whose X this is; the last is that of CO of class 3 and of nothing else, class 5 has none
        let mut run = Run { x: [0; 16], ..fresh };
        run.x[i] = 1_000_000_000;
        for (class, fuel) in (1..).zip([0, 0, 0, 2, 0, 1, 1]) {
            let record = Record { class, shares: Shares { urban: 100, rural: 0, highway: 0 }, ..RECORD };
            let after = haldurap_add(run, record).run;
            for q in 0..5 {
                let at = fuel * 20 + q * 4;
                let place = if class == 3 && q == 0 { 15 } else { fuel * 5 + q };
                c.same(after.grams[at + 3], if class != 5 && place == i { after.grams[at] } else { 0 }, "Run.x");
            }
        }
    }
    for (fuel, class) in [2, 6, 4].into_iter().enumerate() {
        let run = Run { count: 7, km: [1, 2, 3], ..fresh };
        let after = haldurap_add(run, Record { class, ..RECORD }).run;
        let mut km = [1, 2, 3];
        km[fuel] += 10_000_000;
        c.same((after.count, after.km), (8, km), "Run.count, Run.km");
    }
}

fn answers(c: &mut Check, run: Run) {
    let a = haldurap_open(HEAD);
    let x: [u64; 5] = a.run.x[..5].try_into().unwrap();
    c.same((a.number, a.run.trip, a.run.count, x), (0, 120, 0, [532_440_000, 23_664_000, 354_960_000, 0, 112_404_000]), "RunAnswer");
    c.same(a.run.x[15], 383_356_800, "RunAnswer");
    c.same((a.run.total_grams, a.run.total_rests), ([0; 15], [0; 15]), "RunAnswer");
    let mut totals = [0; 15];
    totals[..5].copy_from_slice(&[27_132_182, 4_195_387, 1_919_776, 0, 962_235_860]);
    c.same((run.total_grams, run.total_rests), (totals, [0; 15]), "RunAnswer");
    c.same(haldurap_total(run, 1, 1), GramsAnswer { number: 0, grams: 27_132_182 }, "GramsAnswer");
    c.same(haldurap_total(run, 4, 1), GramsAnswer { number: 11, grams: 0 }, "GramsAnswer");
    c.same(haldurap_balance(run, 1, 1, 1000), BalanceAnswer { number: 0, k: 1_039_246, digits: 12, grams: 28_197_012 }, "BalanceAnswer");
    c.same(haldurap_balance(run, 1, 1, 481), BalanceAnswer { number: 13, k: 0, digits: 0, grams: 0 }, "BalanceAnswer");
    // 1 t over 1.25 t: the seventh digit is the last
    let mut few = run;
    few.grams[16..20].copy_from_slice(&[0, 1_250_000, 0, 0]);
    few.rests[16..20].fill(0);
    c.same(haldurap_balance(settled(few), 1, 1, 1), BalanceAnswer { number: 0, k: 800_000, digits: 7, grams: 21_705_746 }, "BalanceAnswer");
    c.same(report(run, &mut [0; 400]), LengthAnswer { number: 0, bytes: 388 }, "LengthAnswer");
    c.same(report(run, &mut [0; 387]), LengthAnswer { number: 14, bytes: 0 }, "LengthAnswer");
    let row = MapRowAnswer { number: 0, urban: 6_038_000.0, rural: 6_118_000.0, highway: 6_939_000.0, cold: 8_037_182.0 };
    c.same(haldurap_map_row(run, 1, 1), row, "MapRowAnswer");
    c.same(haldurap_map_row(run, 0, 1), MapRowAnswer { number: 11, urban: 0.0, rural: 0.0, highway: 0.0, cold: 0.0 }, "MapRowAnswer");
    c.same(haldurap_figure_cold(run, 1, 1), FigureAnswer { number: 0, given: 1, grams: 8_037_182.0 }, "FigureAnswer");
    c.same(haldurap_figure_cold(run, 1, 4), FigureAnswer { number: 0, given: 0, grams: 0.0 }, "FigureAnswer");
    c.same(haldurap_figure_cold(run, 1, 6), FigureAnswer { number: 11, given: 0, grams: 0.0 }, "FigureAnswer");
    c.same(haldurap_layout(), LayoutAnswer { version: LAYOUT, size: size_of::<Run>() as u64 }, "LayoutAnswer");
    let text = b"  120  100  100  100  100  100  100  100  100  100  100  100  100\n 2   1000  10000  40  40  20  20  60 100\n 0   1000  10000  40  40  20  20  60 100\n";
    c.same(sheet(&text[..107]), SheetAnswer { number: 0, line: 0, run }, "SheetAnswer");
    c.same(sheet(text), SheetAnswer { number: 3, line: 3, run: ZEROS }, "SheetAnswer");
    let texts = [
        (107, 388, TextAnswer { number: 0, bytes: 388, sheet_number: 0, sheet_line: 0 }),
        (107, 387, TextAnswer { number: 14, bytes: 0, sheet_number: 0, sheet_line: 0 }),
        (148, 17, TextAnswer { number: 0, bytes: 17, sheet_number: 3, sheet_line: 3 }),
        (148, 16, TextAnswer { number: 14, bytes: 0, sheet_number: 3, sheet_line: 3 }),
        (0, 17, TextAnswer { number: 0, bytes: 17, sheet_number: 10, sheet_line: 1 }),
        (66, 0, TextAnswer { number: 0, bytes: 0, sheet_number: 0, sheet_line: 0 }),
    ];
    for (length, room, wanted) in texts {
        c.same(report_sheet(&text[..length], &mut vec![0; room]), wanted, "TextAnswer");
    }
}

/// A list: each value of the answer by itself, and the numbers of a record in the order of its fields.
fn lists(c: &mut Check, fresh: Run, run: Run) {
    let numbers = RECORD.numbers();
    c.same(add_list(HEAD, &numbers), ListAnswer { number: 0, taken: 1, place: 0, refused: 0, run }, "ListAnswer");
    c.same(add_list(HEAD, &[]), ListAnswer { number: 0, taken: 0, place: 0, refused: 0, run: fresh }, "ListAnswer");
    let refused = |number| ListAnswer { number, taken: 0, place: 0, refused: 0, run: ZEROS };
    for length in 1..9 {
        c.same(add_list(HEAD, &numbers[..length]), refused(LINE_SHAPE), "ListAnswer");
        c.same(add_list(Head { trip: 9, ..HEAD }, &numbers[..length]), refused(LINE_SHAPE), "ListAnswer");
    }
    c.same(add_list(Head { trip: 9, ..HEAD }, &numbers), refused(TRIP_LENGTH), "ListAnswer");
    c.same(add_list(Head { temps: [401; 12], ..HEAD }, &numbers), refused(TEMPERATURE), "ListAnswer");
    // a number beyond its limit, in each of the nine places of the third record
    for (i, why) in [CLASS, VEHICLES, KILOMETRES, SHARES, SHARES, SHARES, SPEED, SPEED, SPEED].into_iter().enumerate() {
        let mut wrong = numbers.repeat(5);
        wrong[2 * RECORD_NUMBERS + i] += 1 << 32;
        let a = add_list(HEAD, &wrong);
        c.same((a.number, a.taken, a.place, a.refused, a.run.count), (0, 4, 3, why, 4), "ListAnswer");
    }
    // each number of a record where the record has it: the list's run is that of the add
    let fields: [fn(&mut Record) -> &mut u64; 9] = [
        |r| &mut r.class, |r| &mut r.vehicles, |r| &mut r.km, |r| &mut r.shares.urban, |r| &mut r.shares.rural, |r| &mut r.shares.highway,
        |r| &mut r.speeds.urban, |r| &mut r.speeds.rural, |r| &mut r.speeds.highway,
    ];
    for i in 0..9 {
        let (mut record, mut numbers) = (RECORD, numbers);
        let mut change = |at: usize, by: u64| {
            *fields[at](&mut record) = fields[at](&mut record).wrapping_add(by);
            numbers[at] = numbers[at].wrapping_add(by);
        };
        change(i, if (3..6).contains(&i) { 10 } else { 1 });
        if (3..6).contains(&i) {
            change(3 + (i - 2) % 3, 10u64.wrapping_neg());
        }
        let added = haldurap_add(fresh, record);
        c.same((added.number, added.run != run), (0, true), "a changed record");
        c.same(add_list(HEAD, &numbers), ListAnswer { number: 0, taken: 1, place: 0, refused: 0, run: added.run }, "a changed list");
        c.same(record.numbers(), numbers, "Record::numbers");
    }
}

/// In order, and each word out of it.
fn orders(c: &mut Check, fresh: Run, run: Run) {
    c.same((in_order(fresh), in_order(run), in_order(ZEROS)), (true, true, false), "in_order");
    for i in 0..RUN_WORDS {
        let mut words: [u64; RUN_WORDS] = unsafe { transmute(run) };
        words[i] |= 1 << 63;
        c.same(haldurap_in_order(unsafe { transmute::<[u64; RUN_WORDS], Run>(words) }), 0, "in_order of a damaged word");
    }
}

/// Joining: each word of the first and of the second run has its effect at its place; refused, the first comes back.
fn joins(c: &mut Check, fresh: Run, run: Run) {
    let mut joined = |first: Run, second: Run, number: u64, run: Run, what: &str| c.same(haldurap_join(first, second), RunAnswer { number, run }, what);
    let (mut first, mut second, mut both) = (Run { count: 3, ..fresh }, Run { count: 4, ..fresh }, Run { count: 7, ..fresh });
    for i in 0..3 {
        let n = i as u64;
        (first.km[i], second.km[i], both.km[i]) = (10 + n, 200 + 7 * n, 210 + 8 * n);
    }
    for i in 0..60 {
        // every other place with a carry
        let (n, more) = (i as u64, i as u64 % 2);
        (first.grams[i], second.grams[i], both.grams[i]) = (1000 + n, 50_000 + 7 * n, 51_000 + 8 * n + more);
        (first.rests[i], second.rests[i], both.rests[i]) = (600_000_000 + n, 100_000_000 + more * 300_000_000, 700_000_000 + n - more * 700_000_000);
    }
    let [first, second, both] = [first, second, both].map(settled);
    joined(first, second, TAKEN, both, "join");
    joined(second, first, TAKEN, both, "join");
    for run in [first, second, both, fresh] {
        joined(run, fresh, TAKEN, run, "join with a fresh run");
        joined(fresh, run, TAKEN, run, "join with a fresh run");
    }
    // the run of two records, added or joined
    joined(run, run, TAKEN, haldurap_add(run, RECORD).run, "join of two records");
    let damaged = |run: Run, i: usize, change: fn(u64) -> u64| -> Run {
        let mut words: [u64; RUN_WORDS] = unsafe { transmute(run) };
        words[i] = change(words[i]);
        unsafe { transmute(words) }
    };
    // L and each X, good by themselves, but another head's
    for i in 0..17 {
        let other = damaged(second, i, |n| n + 1);
        joined(first, other, HEADS_DIFFER, first, "join of other heads");
        joined(other, first, HEADS_DIFFER, other, "join of other heads");
    }
    // each word out of its range, in either run: before the others
    for i in 0..RUN_WORDS {
        let mut bad = Run { count: 4998, ..second };
        bad.x[15] += 1;
        let bad = damaged(bad, i, |n| n | 1 << 63);
        joined(first, bad, RUN_ORDER, first, "join with a damaged word");
        joined(bad, first, RUN_ORDER, bad, "join with a damaged word");
        joined(bad, bad, RUN_ORDER, bad, "join with a damaged word");
    }
    // 5,000 records together, and one more; other heads come before that
    for (one, other) in [(5000, 0), (0, 5000), (4999, 1), (2500, 2500), (5000, 1), (1, 5000), (2500, 2501), (5000, 5000)] {
        let (first, mut second, both) = (Run { count: one, ..fresh }, Run { count: other, ..fresh }, Run { count: one + other, ..fresh });
        let (number, run) = if one + other <= MOST_RECORDS { (TAKEN, both) } else { (FULL_TOGETHER, first) };
        joined(first, second, number, run, "join of 5,000 records");
        second.x[0] += 1;
        joined(first, second, HEADS_DIFFER, first, "join of 5,000 records");
    }
}

/// Adding to an area and asking for its run give these numbers; a refused add leaves every number, a refused run is zeros.
fn tried(c: &mut Check, areas: &Areas, area: u64, adding: u64, asking: u64, what: &str) {
    let mut lent = areas.clone();
    let run = if asking == 0 { areas.runs[area as usize] } else { ZEROS };
    c.same((area_run(&lent, area), lent == *areas), (RunAnswer { number: asking, run }, true), what);
    c.same((add_area(&mut lent, area, RECORD), lent == *areas), (adding, adding != 0), what);
}

fn areas_of(numbers: [u64; AREAS_NUMBERS]) -> Areas {
    unsafe { transmute(numbers) }
}

fn numbers_of(areas: &Areas) -> [u64; AREAS_NUMBERS] {
    unsafe { transmute(areas.clone()) }
}

/// Areas: every run and the common use by calls, as runs are tried above.
fn areas(c: &mut Check, fresh: Run) {
    let cold = Head { trip: 9, ..HEAD };
    c.same(numbers_of(&Areas::zeros()), [0; AREAS_NUMBERS], "Areas::zeros");
    tried(c, &Areas::zeros(), 0, 16, 16, "areas of zeros");
    tried(c, &Areas::zeros(), 16, 16, 16, "areas of zeros");
    // opened over ones: every number is written
    for (head, why, wanted) in [
        (HEAD, TAKEN, Areas { runs: [fresh; 16], common: 0 }),
        (cold, TRIP_LENGTH, Areas::zeros()),
        (Head { temps: [401; 12], first: 1, ..HEAD }, TEMPERATURE, Areas::zeros()),
        (Head { first: 20_260_516, last: 20_260_500, ..HEAD }, NO_DAY, Areas::zeros()),
        (Head { first: 20_260_516, last: 20_260_515, ..HEAD }, DAY_ORDER, Areas::zeros()),
    ] {
        let mut areas = areas_of([u64::MAX; AREAS_NUMBERS]);
        c.same(open_areas(&mut areas, head), why, "open_areas");
        c.same(areas == wanted, true, "areas after open_areas");
    }
    let mut good = Areas { runs: [fresh; 16], common: 0 };
    // another length, 16 before all else, and every number stays; no number behind the areas is touched
    let mut lent = [&numbers_of(&good)[..], &[u64::MAX; AREAS_NUMBERS]].concat();
    let (before, nothing) = (lent.clone(), Record { class: 0, ..RECORD });
    for length in [0, 1, RUN_WORDS, 2257, AREAS_NUMBERS - 1, AREAS_NUMBERS + 1, 2 * AREAS_NUMBERS] {
        let p = lent.as_mut_ptr();
        let opening = unsafe { [haldurap_open_areas(p, length, HEAD), haldurap_open_areas(p, length, cold)] };
        let adding = unsafe { [haldurap_add_area(p, length, 3, RECORD), haldurap_add_area(p, length, 16, nothing)] };
        c.same((opening, adding), ([16; 2], [16; 2]), "another length");
        for area in [3, 16] {
            c.same(unsafe { haldurap_area_run(p, length, area) }, RunAnswer { number: 16, run: ZEROS }, "another length");
        }
        c.same(lent == before, true, "areas of another length");
    }
    c.same(unsafe { haldurap_open_areas(lent.as_mut_ptr(), AREAS_NUMBERS, cold) }, 1, "open_areas");
    c.same((&lent[..AREAS_NUMBERS], &lent[AREAS_NUMBERS..]), (&[0; AREAS_NUMBERS][..], &before[AREAS_NUMBERS..]), "numbers behind the areas");
    // no such area, before the record's own numbers; no cut to the lower half of a word
    for area in [16, 17, 1 << 32, (1 << 32) + 3, u64::MAX] {
        let mut areas = good.clone();
        c.same((add_area(&mut areas, area, RECORD), add_area(&mut areas, area, nothing)), (NO_AREA, NO_AREA), "no such area");
        c.same(area_run(&areas, area), RunAnswer { number: NO_AREA, run: ZEROS }, "no such area");
        c.same(areas == good, true, "areas without this one");
    }
    // a record of its own in each area: its run is that of the single add, and nothing else changes
    for i in 0..16 {
        let record = Record { class: i % 7 + 1, vehicles: 1000 + i, ..RECORD };
        let mut areas = good.clone();
        good.runs[i as usize] = haldurap_add(fresh, record).run;
        c.same((add_area(&mut areas, i, record), areas == good), (0, true), "add_area");
    }
    for i in 0..16 {
        c.same(area_run(&good, i), RunAnswer { number: 0, run: good.runs[i as usize] }, "area_run");
    }
    // joined one after the other: a run with the sixteen records
    let (mut all, mut single) = (fresh, fresh);
    for i in 0..16 {
        single = haldurap_add(single, Record { class: i % 7 + 1, vehicles: 1000 + i, ..RECORD }).run;
        let a = haldurap_join(all, area_run(&good, i).run);
        c.same(a, RunAnswer { number: 0, run: single }, "join of areas");
        all = a.run;
    }
    // each field of a record is refused with its own number, as in the single add
    for (i, why) in [CLASS, VEHICLES, KILOMETRES, SHARES, SHARES, SHARES, SPEED, SPEED, SPEED].into_iter().enumerate() {
        let mut numbers = RECORD.numbers();
        numbers[i] += 1 << 32;
        let mut areas = good.clone();
        let wrong: Record = unsafe { transmute(numbers) };
        c.same((add_area(&mut areas, 3, wrong), areas == good), (why, true), "a record in add_area");
    }
    // each number out of its range, whichever area is asked
    for i in 0..AREAS_NUMBERS {
        let mut numbers = numbers_of(&good);
        numbers[i] |= 1 << 63;
        tried(c, &areas_of(numbers), i as u64 % 17, 16, 16, "areas with a damaged number");
    }
    for i in 0..16 {
        let other = (i + 5) % 16;
        let changed = |change: &dyn Fn(&mut Areas)| {
            let mut areas = good.clone();
            change(&mut areas);
            areas
        };
        // each limit of a run, in each area: the last good value is taken, the next is not
        let mut limit = |most: u64, field: &dyn Fn(&mut Run) -> &mut u64| {
            for (value, number) in [(most, 0), (most + 1, 16)] {
                let areas = changed(&|a| {
                    a.runs[i] = Run { count: 3, ..fresh };
                    *field(&mut a.runs[i]) = value;
                    a.runs[i] = settled(a.runs[i]);
                });
                tried(c, &areas, other as u64, number, number, "Areas.runs at its limit and over it");
            }
        };
        (0..3).for_each(|j| limit(3_000_000_000, &|r| &mut r.km[j]));
        (0..60).for_each(|j| limit(3_000_000_000_000, &|r| &mut r.grams[j]));
        (0..60).for_each(|j| limit(999_999_999, &|r| &mut r.rests[j]));
        // each total off by one gram and by one billionth
        for j in 0..15 {
            tried(c, &changed(&|a| a.runs[i].total_grams[j] ^= 1), other as u64, 16, 16, "Areas.runs.total_grams");
            tried(c, &changed(&|a| a.runs[i].total_rests[j] ^= 1), other as u64, 16, 16, "Areas.runs.total_rests");
        }
        // L and each X, good by themselves, but another head's; the same in all, up to their limits
        let mut of_head = |field: &dyn Fn(&mut Run) -> &mut u64, most: u64| {
            tried(c, &changed(&|a| *field(&mut a.runs[i]) += 1), other as u64, 16, 16, "Areas.runs of another head");
            for (value, number) in [(most, 0), (most + 1, 16)] {
                let areas = changed(&|a| a.runs.iter_mut().for_each(|r| *field(r) = value));
                tried(c, &areas, i as u64, number, number, "Areas.runs of one head");
            }
        };
        of_head(&|r| &mut r.trip, 200);
        (0..16).for_each(|j| of_head(&|r| &mut r.x[j], 4_900_000_000));
        // common is what the areas have beyond 300, and never less for one below: taken, full (18), not in order (16)
        for (count, others, common, adding) in [
            (299, 1, 0, 0), (300, 1, 0, 0), (301, 1, 1, 0), (301, 299, 1, 0), (499, 1, 199, 0), (299, 500, 200, 0), (400, 399, 199, 0),
            (500, 1, 200, 18), (300, 500, 200, 18), (301, 499, 200, 18), (400, 400, 200, 18),
            (299, 1, 1, 16), (300, 1, 1, 16), (301, 1, 0, 16), (301, 1, 2, 16), (301, 299, 0, 16), (500, 1, 199, 16), (500, 1, 201, 16),
            (501, 1, 201, 16), (501, 1, 200, 16), (401, 400, 201, 16), (400, 400, 100, 16), (5000, 1, 4700, 16), (5001, 1, 4701, 16),
        ] {
            let mut areas = changed(&|a| (a.runs[i].count, a.runs[other].count, a.common) = (count, others, common));
            tried(c, &areas, i as u64, adding, if adding == 16 { 16 } else { 0 }, "Areas.runs.count, Areas.common");
            if adding == 0 {
                let mut wanted = areas.clone();
                wanted.runs[i] = haldurap_add(areas.runs[i], RECORD).run;
                wanted.common += (count >= 300) as u64;
                c.same((add_area(&mut areas, i as u64, RECORD), areas == wanted), (0, true), "areas with one more");
            }
            if adding == 18 {
                // after the record's own numbers
                let fast = Record { speeds: Speeds { urban: 20, rural: 60, highway: 131 }, ..RECORD };
                c.same(add_area(&mut areas, i as u64, fast), SPEED, "a full area");
            }
        }
    }
}

/// The days of a head, in each call that takes one and in a sheet.
fn days(c: &mut Check) {
    let temps = [-50, -20, 10, 60, 110, 150, 180, 175, 130, 80, 30, -10];
    let high = 1 << 32;
    for (first, last, number) in [
        (20_260_515, 20_261_020, TAKEN),
        (20_260_515, 20_260_515, TAKEN),
        (20_261_020, 20_260_515, DAY_ORDER),
        (20_260_515, 20_270_515, DAY_ORDER),
        (20_260_515, 0, NO_DAY),
        (0, 20_260_515, NO_DAY),
        (high + 20_260_515, 20_261_020, NO_DAY),
        (20_260_515, high + 20_261_020, NO_DAY),
        (u64::MAX, u64::MAX, NO_DAY),
        (0, 0, TAKEN),
    ] {
        let head = Head { trip: 120, temps, first, last };
        let a = haldurap_open(head);
        c.same((a.number, a.run == ZEROS), (number, number != 0), "days in open");
        c.same(add_list(head, &[]), ListAnswer { number, taken: 0, place: 0, refused: 0, run: a.run }, "days in add_list");
        let mut areas = Areas::zeros();
        c.same((open_areas(&mut areas, head), areas == Areas { runs: [a.run; 16], common: 0 }), (number, true), "days in open_areas");
        let line = format!("{:5}{}", 120, temps.map(|t| format!("{t:5}")).concat());
        c.same(line.len() + 1, HEAD_BYTES, "HEAD_BYTES");
        if first.max(last) < 1_000_000_000 {
            let line = format!("{line}{first:9}{last:9}\n");
            c.same(line.len(), DATED_HEAD_BYTES, "DATED_HEAD_BYTES");
            // a line of 15 numbers is dated, also by days 0 and 0
            let number = if (first, last) == (0, 0) { NO_DAY } else { number };
            let run = if number == TAKEN { a.run } else { ZEROS };
            c.same(sheet(line.as_bytes()), SheetAnswer { number, line: (number != 0) as usize, run }, "days in a sheet");
        }
    }
    for i in 0..12 {
        // a day of each month has the X of its month's T, and of no other
        let day = 20_260_101 + 100 * i as u64;
        let mut head = Head { first: day, last: day, ..HEAD };
        head.temps[i] = 50;
        c.same(haldurap_open(head).run.x, haldurap_open(Head { temps: [50; 12], ..HEAD }).run.x, "X of one day");
    }
}

fn main() {
    let mut c = Check { done: 0, failed: false };
    let fresh = haldurap_open(HEAD).run;
    let run = haldurap_add(fresh, RECORD).run;
    as_documented(&mut c);
    sizes_written(&mut c, run);
    inputs(&mut c, fresh);
    runs(&mut c, fresh);
    answers(&mut c, run);
    lists(&mut c, fresh, run);
    orders(&mut c, fresh, run);
    joins(&mut c, fresh, run);
    areas(&mut c, fresh);
    days(&mut c);
    println!("Rust: {} sizes, offsets and values compared, {}", c.done, if c.failed { "SOME DIFFER" } else { "all the same" });
    std::process::exit(c.failed as i32);
}
