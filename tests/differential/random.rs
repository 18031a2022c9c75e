//! Random and boundary heads, records, runs, areas and sheets.
use crate::reference::{is_day, Areas, Head, Record, Run, Sum};

/// SplitMix64.
pub struct Random(pub u64);

impl Random {
    pub fn next(&mut self) -> u64 {
        self.0 = self.0.wrapping_add(0x9e37_79b9_7f4a_7c15);
        let mut z = self.0;
        z = (z ^ (z >> 30)).wrapping_mul(0xbf58_476d_1ce4_e5b9);
        z = (z ^ (z >> 27)).wrapping_mul(0x94d0_49bb_1331_11eb);
        z ^ (z >> 31)
    }

    /// 0 to n - 1.
    pub fn below(&mut self, n: u64) -> u64 {
        self.next() % n
    }

    /// low to high, both included.
    pub fn from_to(&mut self, low: u64, high: u64) -> u64 {
        low + self.below(high - low + 1)
    }

    /// True once in n times.
    pub fn one_in(&mut self, n: u64) -> bool {
        self.below(n) == 0
    }

    pub fn of<T: Copy>(&mut self, list: &[T]) -> T {
        list[self.below(list.len() as u64) as usize]
    }

    pub fn place(&mut self, length: usize) -> usize {
        self.below(length as u64) as usize
    }

    /// low to high, small ones as often as large ones, and the ends often.
    pub fn scaled(&mut self, low: u64, high: u64) -> u64 {
        match self.below(12) {
            0 => low,
            1 => high,
            2 => self.from_to(low, high),
            _ => {
                let bits = self.from_to(0, 64 - high.leading_zeros() as u64);
                (self.next() & (1u64 << bits).wrapping_sub(1)).clamp(low, high)
            }
        }
    }

    pub fn bytes(&mut self, n: usize) -> Vec<u8> {
        (0..n).map(|_| self.next() as u8).collect()
    }
}

// ---- Heads

fn temperature(r: &mut Random) -> i64 {
    match r.below(10) {
        0 => r.of(&[-300, -299, -1, 0, 1, 399, 400]),
        1..=4 => r.below(701) as i64 - 300,
        _ => r.below(400) as i64 - 120,
    }
}

/// A head without dates.
pub fn undated_head(r: &mut Random) -> Head {
    let trip = if r.one_in(5) { r.of(&[10, 11, 199, 200]) } else { r.from_to(10, 200) };
    let same = r.one_in(10).then(|| temperature(r));
    Head::year(trip, std::array::from_fn(|_| same.unwrap_or_else(|| temperature(r))))
}

pub fn dated_head(r: &mut Random) -> Head {
    Head { days: Some(period(r)), ..undated_head(r) }
}

pub fn good_head(r: &mut Random) -> Head {
    if r.one_in(2) { dated_head(r) } else { undated_head(r) }
}

/// A day of a year as it is written.
fn day_of(r: &mut Random, year: u64) -> u64 {
    loop {
        let (month, day) = match r.below(5) {
            0 => r.of(&[(1, 1), (1, 31), (2, 28), (2, 29), (3, 1), (4, 30), (12, 1), (12, 31)]),
            _ => (r.from_to(1, 12), r.from_to(1, 31)),
        };
        let written = year * 10_000 + month * 100 + day;
        if is_day(written) {
            return written;
        }
    }
}

fn any_year(r: &mut Random) -> u64 {
    if r.one_in(3) { r.of(&[1980, 1981, 1996, 1997, 2000, 2026, 2096, 2099, 2100]) } else { r.from_to(1980, 2100) }
}

/// The first and the last day of a period that is taken.
pub fn period(r: &mut Random) -> [u64; 2] {
    let year = any_year(r);
    let (one, other) = (day_of(r, year), day_of(r, year));
    match r.below(8) {
        0 => [year * 10_000 + 101, year * 10_000 + 1231],
        1 => [one, one],
        _ => [one.min(other), one.max(other)],
    }
}

/// What is no day: beside the calendar, of too few or too many digits, or with a day as a part of it. The first ones have room in
/// nine digits.
const NO_DAYS: [u64; 36] = [
    0, 1, 31, 1231, 10_101, 1980, 198_001, 1_980_101, 2_026_515, 202_605_150, 120_260_515, 19_790_101, 19_791_231, 21_010_101, 21_011_231,
    99_991_231, 20_260_015, 20_261_315, 20_260_500, 20_260_532, 20_260_431, 20_260_631, 20_260_931, 20_261_131, 20_269_999, 19_970_229,
    21_000_229, 20_000_230, 999_999_999, 1_000_000_000, 1_020_260_515, (1 << 32) + 20_260_515, (1 << 33) + 20_260_515,
    (1 << 63) + 20_260_515, u64::MAX - (1 << 32) + 20_260_516, u64::MAX,
];
const NINE_DIGITS: usize = 29;

/// A number that is no day.
fn no_day(r: &mut Random, most: usize) -> u64 {
    if r.one_in(2) {
        return NO_DAYS[r.place(most)];
    }
    loop {
        let written = r.from_to(1979, 2101) * 10_000 + r.from_to(0, 13) * 100 + r.from_to(0, 32);
        if !is_day(written) {
            return written;
        }
    }
}

/// Days of which one or both are none, of numbers up to a place of NO_DAYS (19).
fn no_days(r: &mut Random, most: usize) -> [u64; 2] {
    let [first, last] = period(r);
    let none = no_day(r, most);
    match r.below(4) {
        0 => [none, last],
        1 => [first, none],
        2 => [none, none],
        _ => [none, no_day(r, most)],
    }
}

/// Two days, the last before the first or in another year (20).
fn days_out_of_order(r: &mut Random) -> [u64; 2] {
    loop {
        let (year, other) = (any_year(r), any_year(r));
        let [first, last] = match r.below(4) {
            0 => [day_of(r, year), day_of(r, other)],
            1 if year < 2100 => [year * 10_000 + 1231, year * 10_000 + 10_101],
            _ => [day_of(r, year), day_of(r, year)],
        };
        if last < first || last / 10_000 != first / 10_000 {
            return [first, last];
        }
    }
}

/// Days as C hands them in: 0 and 0 are none.
fn lent(days: [u64; 2]) -> Option<[u64; 2]> {
    (days != [0; 2]).then_some(days)
}

/// A head by where Q of gasoline CO is 0, which is from 30.0 degrees on: in every month (season 0), in none (1), in some (2).
pub fn head_of_season(r: &mut Random, season: usize) -> Head {
    let warm = match season {
        0 => 12,
        1 => 0,
        _ => r.from_to(1, 11) as usize,
    };
    let mut temps = std::array::from_fn(|month| match (month < warm, r.one_in(4)) {
        (true, true) => r.of(&[300, 301, 399, 400]),
        (true, false) => r.from_to(300, 400) as i64,
        (false, true) => r.of(&[-300, -299, 298, 299]),
        (false, false) => r.below(600) as i64 - 300,
    });
    temps.rotate_left(r.place(12));
    let days = r.one_in(2).then(|| period(r));
    Head { trip: r.from_to(10, 200), temps, days }
}

/// A head with one or more values that may be out of range.
pub fn damaged_head(r: &mut Random) -> Head {
    let mut head = good_head(r);
    for _ in 0..r.from_to(1, 3) {
        match r.below(6) {
            0 | 1 => head.trip = r.of(&[0, 1, 9, 10, 200, 201, 1 << 32, (1 << 32) + 100, (1 << 63) + 100, u64::MAX]),
            2 => head.days = lent(no_days(r, NO_DAYS.len())),
            3 => head.days = lent(days_out_of_order(r)),
            _ => {
                let at = r.place(12);
                head.temps[at] = r.of(&[-301, -300, 400, 401, i64::MIN, i64::MAX, -(1 << 32), (1 << 32) + 5, i64::MIN + 100, 1000, -1000]);
            }
        }
    }
    head
}

// ---- Records

pub fn good_record(r: &mut Random) -> Record {
    let vehicles = r.scaled(1, 1_000_000);
    let most = 999_999.min(1_000_000_000 / vehicles);
    let km = if r.one_in(15) { most } else { r.scaled(1, most) };
    let shares = match r.below(12) {
        0 => r.of(&[[100, 0, 0], [0, 100, 0], [0, 0, 100], [99, 1, 0], [0, 1, 99], [33, 33, 34]]),
        _ => {
            let a = r.from_to(0, 100);
            let b = r.from_to(0, 100 - a);
            let mut s = [a, b, 100 - a - b];
            s.rotate_left(r.place(3));
            s
        }
    };
    let speeds = std::array::from_fn(|_| if r.one_in(8) { r.of(&[10, 11, 129, 130]) } else { r.from_to(10, 130) });
    Record { class: r.from_to(1, 7), vehicles, km, shares, speeds }
}

/// A record with one or more values at or beyond an end.
pub fn damaged_record(r: &mut Random) -> Record {
    let mut record = good_record(r);
    for _ in 0..r.of(&[1, 1, 1, 2, 3]) {
        match r.below(8) {
            0 => record.class = r.of(&[0, 8, 9, 256 + 2, (1 << 32) + 2, u64::MAX]),
            1 => record.vehicles = r.of(&[0, 1, 1_000_000, 1_000_001, 1 << 32, u64::MAX]),
            2 => record.km = r.of(&[0, 1, 999_999, 1_000_000, 1 << 32, u64::MAX]),
            3 => {
                (record.vehicles, record.km) =
                    r.of(&[(100_001, 10_000), (1001, 999_999), (1_000_000, 1001), (1_000_000, 999_999), (31_623, 31_623), (1_000_000, 1000)])
            }
            4 => record.shares[r.place(3)] = r.of(&[0, 100, 101, 1 << 32, 1 << 63, u64::MAX]),
            5 => {
                let at = r.place(3);
                record.shares[at] = if r.one_in(2) { record.shares[at].wrapping_add(1) } else { record.shares[at].wrapping_sub(1) };
            }
            6 => {
                record.shares = r.of(&[
                    [u64::MAX, 1, 100],
                    [1 << 63, 1 << 63, 100],
                    [101, u64::MAX, 0],
                    [0, 0, 0],
                    [100, 100, 100],
                    [50, 50, 1],
                    [40, 40, 19],
                    [(1 << 32) + 40, 40, 20],
                ])
            }
            _ => record.speeds[r.place(3)] = r.of(&[0, 1, 9, 10, 130, 131, 256 + 50, (1 << 32) + 50, u64::MAX]),
        }
    }
    record
}

// ---- Runs in order that no list of adds may have given

fn sum_up_to(r: &mut Random, most: u64) -> Sum {
    let grams = match r.below(10) {
        0 => most,
        1 => 0,
        2..=5 => r.scaled(0, most),
        _ => r.from_to(0, most),
    };
    let rest = if r.one_in(3) { r.of(&[0, 1, 250_000_000, 499_999_999, 500_000_000, 500_000_001, 999_999_999]) } else { r.below(1_000_000_000) };
    Sum { grams, rest: if grams == most { 0 } else { rest } }
}

pub fn any_run_in_order(r: &mut Random) -> Run {
    let count = match r.below(6) {
        0 => r.of(&[0, 1, 4998, 4999, 5000]),
        1..=3 => r.scaled(0, 5000),
        _ => r.from_to(0, 5000),
    };
    run_of_count(r, count)
}

pub fn run_of_count(r: &mut Random, count: u64) -> Run {
    // Small sums too, so that kinds and totals below a gram and reports with lines left out occur.
    let most = if r.one_in(3) { r.from_to(0, 3).min(count) } else { 1_000_000_000_000 * count };
    let mut run = Run { trip: r.from_to(10, 200), count, ..Run::default() };
    for x in run.x.iter_mut().flatten().chain([&mut run.x_class_3]) {
        *x = if r.one_in(10) { r.of(&[0, 1, 4_899_999_999, 4_900_000_000]) } else { r.from_to(0, 4_900_000_000) };
    }
    for km in &mut run.km {
        *km = r.scaled(0, 1_000_000_000 * count);
    }
    for sum in run.sums.iter_mut().flatten().flatten() {
        *sum = sum_up_to(r, most);
    }
    run.settle();
    run
}

// ---- Areas in order that no list of adds may have given

/// How many records each area has: below, at and beyond its 300, the common 200 used by none, by some or by all.
fn counts(r: &mut Random) -> [u64; 16] {
    let usual = r.of(&[0, 1, 299, 300]);
    let mut counts = std::array::from_fn(|_| match r.below(8) {
        0..=2 => usual,
        3 => r.of(&[0, 1, 299, 300]),
        _ => r.scaled(0, 300),
    });
    let any = r.from_to(0, 200);
    let mut left = r.of(&[0, 1, 199, 200, any]);
    let most = r.of(&[1, 13, 100, 200]);
    while left > 0 {
        let area = r.place(16);
        let more = r.from_to(1, left.min(most));
        counts[area] = counts[area].max(300) + more;
        left -= more;
    }
    counts
}

/// Areas in order with these counts.
pub fn areas_of_counts(r: &mut Random, counts: [u64; 16]) -> Areas {
    let head = run_of_count(r, 0);
    let runs = counts.map(|count| Run { trip: head.trip, x: head.x, x_class_3: head.x_class_3, ..run_of_count(r, count) });
    Areas { runs, common: counts.iter().map(|count| count.saturating_sub(300)).sum() }
}

pub fn any_areas_in_order(r: &mut Random) -> Areas {
    let counts = counts(r);
    areas_of_counts(r, counts)
}

// ---- Sheets

pub fn head_line(head: &Head) -> Vec<u8> {
    let mut line = format!("{:5}", head.trip);
    for t in head.temps {
        line += &format!("{t:5}");
    }
    for day in head.days.iter().flatten() {
        line += &format!("{day:9}");
    }
    (line + "\n").into_bytes()
}

pub fn record_line(record: &Record) -> Vec<u8> {
    let mut line = format!("{:2}{:7}{:7}", record.class, record.vehicles, record.km);
    for n in record.shares.iter().chain(&record.speeds) {
        line += &format!("{n:4}");
    }
    (line + "\n").into_bytes()
}

/// A record whose numbers have room in their fields, with one that is out of range.
fn record_out_of_range(r: &mut Random) -> Record {
    let mut record = good_record(r);
    match r.below(6) {
        0 => record.class = r.of(&[0, 8, 9, 10, 99]),
        1 => record.vehicles = r.of(&[0, 1_000_001, 9_999_999]),
        2 => record.km = r.of(&[0, 1_000_000, 9_999_999]),
        3 => (record.vehicles, record.km) = r.of(&[(100_001, 10_000), (1_000_000, 999_999), (1001, 999_999)]),
        4 => record.shares[r.place(3)] = r.of(&[0, 99, 100, 101, 9999]),
        _ => record.speeds[r.place(3)] = r.of(&[0, 9, 131, 9999]),
    }
    record
}

/// A head whose numbers have room in their fields, with one that is out of range.
fn head_out_of_range(r: &mut Random) -> Head {
    let mut head = good_head(r);
    match r.below(4) {
        0 => head.trip = r.of(&[0, 9, 201, 99_999]),
        1 => head.temps[r.place(12)] = r.of(&[-9999, -301, 401, 99_999]),
        2 => head.days = Some(no_days(r, NINE_DIGITS)),
        _ => head.days = Some(days_out_of_order(r)),
    }
    head
}

/// Bytes that a sheet has, and some that look like them.
const ALPHABET: &[u8] = b"0123456789          ---\n\n+.\t\r\0/:\xa0\xb2";

/// The last two are those of a dated head.
const WIDTHS_HEAD: [usize; 15] = [5, 5, 5, 5, 5, 5, 5, 5, 5, 5, 5, 5, 5, 9, 9];
const WIDTHS_RECORD: [usize; 9] = [2, 7, 7, 4, 4, 4, 4, 4, 4];
const DATED_LINE: usize = 84;

/// The bounds of a field of a whole line.
fn field(r: &mut Random, line: &[u8], head: bool) -> (usize, usize) {
    let widths: &[usize] = match (head, line.len()) {
        (true, DATED_LINE) => &WIDTHS_HEAD,
        (true, _) => &WIDTHS_HEAD[..13],
        _ => &WIDTHS_RECORD,
    };
    let f = r.place(widths.len());
    let at: usize = widths[..f].iter().sum();
    (at, at + widths[f])
}

/// What is done to a well-formed sheet; those of random bytes are made from nothing.
pub const EDITS: [&str; 36] = [
    "well formed",
    "a value out of range",
    "a byte replaced",
    "a byte replaced by one like a sheet's",
    "a byte inserted",
    "a byte deleted",
    "cut short",
    "last LF missing",
    "bytes after the last LF",
    "an empty line",
    "a line doubled",
    "two lines exchanged",
    "head twice",
    "head missing",
    "CRLF",
    "a leading zero",
    "left-justified",
    "minus before 0",
    "minus in L, a day or a record",
    "a plus",
    "a blank field",
    "a space inside a number",
    "a space more in a line",
    "two fields exchanged",
    "a number too wide",
    "a LF inside a line",
    "two lines joined",
    "a letter or a digit of another script",
    "minus away from its number",
    "several edits",
    "random bytes",
    "random bytes like a sheet's",
    "a day that is none",
    "days out of order",
    "12, 14 or 16 numbers in the head",
    "a byte where a head without days ends",
];

/// A sheet of this head with n records.
pub fn sheet_under(r: &mut Random, head: &Head, n: usize) -> Vec<u8> {
    let mut text = head_line(head);
    for _ in 0..n {
        text.extend(record_line(&good_record(r)));
    }
    text
}

/// A sheet with n records, damaged by an edit (a place of EDITS).
pub fn sheet(r: &mut Random, n: usize, edit: usize) -> Vec<u8> {
    let bad = if edit == 1 { r.place(n + 1) } else { n + 1 };
    let head = match edit {
        1 if bad == 0 => head_out_of_range(r),
        32 => Head { days: Some(no_days(r, NINE_DIGITS)), ..undated_head(r) },
        33 => Head { days: Some(days_out_of_order(r)), ..undated_head(r) },
        34 | 35 => dated_head(r),
        _ => good_head(r),
    };
    let mut lines = vec![head_line(&head)];
    for i in 0..n {
        lines.push(record_line(&if bad == i + 1 { record_out_of_range(r) } else { good_record(r) }));
    }
    match edit {
        0 | 1 | 32 | 33 => {}
        29 => {
            let mut text = lines.concat();
            for _ in 0..r.from_to(2, 4) {
                edit_bytes(r, &mut text);
            }
            return text;
        }
        30 => {
            let n = r.place(300);
            return r.bytes(n);
        }
        31 => {
            let n = r.place(4);
            let mut text = Vec::new();
            for i in 0..=n {
                let length = if i == 0 { r.of(&[65, 83]) } else { 40 };
                let length = if r.one_in(4) { r.place(100) } else { length };
                text.extend((0..length).map(|_| r.of(ALPHABET)));
                text.push(b'\n');
            }
            return text;
        }
        _ => edit_lines(r, &mut lines, edit),
    }
    lines.concat()
}

fn edit_bytes(r: &mut Random, text: &mut Vec<u8>) {
    let at = r.place(text.len() + 1);
    match r.below(4) {
        0 => text.insert(at, r.of(ALPHABET)),
        _ if at == text.len() => text.push(r.of(ALPHABET)),
        1 => drop(text.remove(at)),
        2 => text[at] = r.next() as u8,
        _ => text[at] = r.of(ALPHABET),
    }
}

/// The bounds of the digits (and the minus) of a field.
fn digits(line: &[u8], (from, to): (usize, usize)) -> (usize, usize) {
    let first = (from..to).find(|&i| line[i] != b' ').unwrap_or(to);
    (first, to)
}

fn edit_lines(r: &mut Random, lines: &mut Vec<Vec<u8>>, edit: usize) {
    let i = r.place(lines.len());
    let j = r.place(lines.len());
    let head = i == 0;
    let at = r.place(lines[i].len());
    let (from, to) = field(r, &lines[i], head);
    match edit {
        2 => lines[i][at] = r.next() as u8,
        3 => lines[i][at] = r.of(ALPHABET),
        4 => lines[i].insert(at, if r.one_in(4) { r.next() as u8 } else { r.of(ALPHABET) }),
        5 => drop(lines[i].remove(at)),
        6 => {
            lines.truncate(i + 1);
            lines[i].truncate(at);
        }
        7 => drop(lines.last_mut().unwrap().pop()),
        8 => {
            let n = r.from_to(1, 45) as usize;
            let tail = (0..n).map(|_| r.of(b" 0123456789")).collect();
            lines.push(tail);
        }
        9 => lines.insert(r.place(lines.len() + 1), b"\n".to_vec()),
        10 => lines.insert(i, lines[i].clone()),
        11 => lines.swap(i, j),
        12 => lines.insert(0, lines[0].clone()),
        13 => drop(lines.remove(0)),
        14 => {
            let all = r.one_in(2);
            for (k, line) in lines.iter_mut().enumerate() {
                if all || k == i {
                    let end = line.len() - 1;
                    line.insert(end, b'\r');
                }
            }
        }
        15 => {
            let (first, _) = digits(&lines[i], (from, to));
            if first > from {
                lines[i][first - 1] = b'0';
            }
        }
        16 => {
            let (first, _) = digits(&lines[i], (from, to));
            lines[i][from..to].rotate_left(first - from);
        }
        17 => {
            let width = to - from;
            let zero = format!("{:>width$}", "-0");
            lines[i][from..to].copy_from_slice(zero.as_bytes());
        }
        18 => {
            // a T may have one
            let (from, to) = if head && to - from == 5 { (0, 5) } else { (from, to) };
            let (first, _) = digits(&lines[i], (from, to));
            if first > from {
                lines[i][first - 1] = b'-';
            }
        }
        19 => {
            let (first, _) = digits(&lines[i], (from, to));
            if first > from {
                lines[i][first - 1] = b'+';
            }
        }
        20 => lines[i][from..to].fill(b' '),
        21 => {
            let (first, end) = digits(&lines[i], (from, to));
            let k = first + r.place(end - first);
            lines[i][k] = b' ';
        }
        22 => {
            let k = r.of(&[0, lines[i].len() - 1]);
            lines[i].insert(k, b' ');
        }
        23 => {
            let (from2, to2) = field(r, &lines[i], head);
            let (a, b) = (lines[i][from..to].to_vec(), lines[i][from2..to2].to_vec());
            if a.len() == b.len() {
                lines[i][from..to].copy_from_slice(&b);
                lines[i][from2..to2].copy_from_slice(&a);
            } else {
                lines[i][from..to].rotate_left(1);
            }
        }
        24 => {
            let number = format!("{}", r.of(&[10_000u64, 100_000, 12_345_678, 99_999_999, 1_234_567_890, u64::MAX]));
            lines[i].splice(from..to, number.into_bytes());
        }
        25 => lines[i].insert(at, b'\n'),
        26 => drop(lines[i].pop()),
        27 => lines[i][at] = r.of(b"aAlO\xb2\x80\xff\x0b\x0c\x30"),
        28 => {
            // a minus at the field's start, spaces behind it, then the number
            if head {
                lines[i][from] = b'-';
            } else {
                lines[i][at] = b'-';
            }
        }
        34 => match r.below(4) {
            0 => drop(lines[0].drain(60..83)),
            1 => drop(lines[0].drain(74..83)),
            2 => drop(lines[0].splice(83..83, *b" 20261020")),
            _ => drop(lines[0].splice(83..83, *b"  100")),
        },
        35 => lines[0][65] = r.of(b"\n\n\r 0123456789-"),
        _ => unreachable!(),
    }
}
