//! Part years: every number that looks like a day, as the first and as the last; periods at random, whose days are counted in a
//! calendar of its own; the figures that go by them.
use super::*;

#[derive(Clone, Copy, Default)]
pub struct Tried {
    /// Numbers that look like a day, and those that are one.
    pub written: u64,
    pub days: u64,
    /// Dated heads at random.
    pub heads: u64,
}

/// 1 January 1980, counted in days from 1 March of the year 0, and the days from it to the end of 2100.
const START: u64 = 723_120;
const DAYS: u64 = 44_195;

/// A day by its number from 1 March of the year 0: cycles of 400, 100 and 4 years, and of the months from March on, of which five
/// have 153 days. So neither a year nor a month is asked for its length.
fn day_at(number: u64) -> u64 {
    let (cycle, number) = (number / 146_097, number % 146_097);
    let year = (number - number / 1460 + number / 36_524 - number / 146_096) / 365;
    let number = number - (365 * year + year / 4 - year / 100);
    let month = (5 * number + 2) / 153;
    let day = number - (153 * month + 2) / 5 + 1;
    let (month, year) = if month < 10 { (month + 3, year) } else { (month - 9, year + 1) };
    (cycle * 400 + year) * 10_000 + month * 100 + day
}

/// Opens a head of these days, no two of its months alike, and holds it to the number that it was made for.
fn expect(held: &mut Held, r: &mut Random, days: [u64; 2], number: u64) {
    let mut temps = [-141, -90, -33, 18, 77, 121, 166, 207, 151, 94, 40, -52];
    temps.rotate_left(r.place(12));
    let head = plain::Head { trip: r.from_to(10, 200), temps, days: Some(days) };
    assert_eq!(number_of(&plain::open(&head)), number, "{head:?}");
    open(held, &head);
}

/// Every number from 1978 to 2102 with months from 0 to 13 and days from 0 to 32: alone, as a first and as a last day.
fn every_day(held: &mut Held, r: &mut Random, calendar: &[u64], step: usize) {
    let written = (1978..=2102).flat_map(|year| (0..=13).flat_map(move |month| (0..=32).map(move |day| year * 10_000 + month * 100 + day)));
    for written in written.skip(r.place(step)).step_by(step) {
        let year = written / 10_000 * 10_000;
        let is_day = calendar.binary_search(&written).is_ok();
        held.periods.written += 1;
        held.periods.days += is_day as u64;
        let number = if is_day { 0 } else { 19 };
        expect(held, r, [written, written], number);
        expect(held, r, [written, year + 1231], number);
        expect(held, r, [year + 101, written], number);
        // out of order by a day or by a year, where both are days
        for days in [[written + 1, written], [written, written - 1], [written, written + 10_000], [written, written - 10_000]] {
            let both = days.iter().all(|day| calendar.binary_search(day).is_ok());
            expect(held, r, days, if both { 20 } else { 19 });
        }
    }
    // the first and the last there is
    for (days, number) in [
        ([19_800_101, 19_800_101], 0),
        ([19_800_101, 19_801_231], 0),
        ([19_791_231, 19_800_101], 19),
        ([21_001_231, 21_001_231], 0),
        ([21_000_101, 21_001_231], 0),
        ([21_001_231, 21_010_101], 19),
        ([0, 20_260_515], 19),
        ([20_260_515, 0], 19),
        ([u64::MAX, u64::MAX], 19),
    ] {
        expect(held, r, days, number);
    }
}

/// The days of a period in each month, one by one in the calendar.
fn counted(calendar: &[u64], [first, last]: [u64; 2]) -> [u64; 12] {
    let [from, to] = [first, last].map(|day| calendar.binary_search(&day).expect("a day"));
    let mut months = [0; 12];
    for day in &calendar[from..=to] {
        months[(day / 100 % 100) as usize - 1] += 1;
    }
    months
}

/// A dated head: its run, some records one by one and as a list, and the distance from the exact sums.
fn at_random(held: &mut Held, r: &mut Random, calendar: &[u64]) {
    let head = random::dated_head(r);
    held.periods.heads += 1;
    assert_eq!(plain::month_weights(head.days), counted(calendar, head.days.expect("a dated head")));
    let (mut ours, mut theirs) = open(held, &head).expect("a dated head that is taken");
    assert!(theirs.in_order());
    ask_order(held, ours, &theirs);
    let mut tally = plain::Tally::of(&head);
    let records: Vec<_> = (0..r.from_to(1, 6)).map(|_| any_record(r)).collect();
    for record in &records {
        if add(held, &mut ours, &mut theirs, record) == 0 {
            tally.feed(record);
        }
    }
    ask_distance(held, ours, |fuel, quantity, grams| tally.is_near(fuel, quantity, grams));
    ask_list(held, &head, &records.iter().flat_map(numbers).collect::<Vec<_>>());
    // only the days weigh: T of a month without any does not show, a head without dates or of other days is another one
    let weights = plain::month_weights(head.days);
    let without: Vec<usize> = (0..12).filter(|&month| weights[month] == 0).collect();
    if !without.is_empty() {
        let mut other = head;
        other.temps[r.of(&without)] = r.of(&[-300, 0, 400]);
        if open(held, &other).map(|(ours, _)| ours) != open(held, &head).map(|(ours, _)| ours) {
            held.differ(|| format!("a month without a day of the period weighs: {head:?}"));
        }
    }
    open(held, &plain::Head { days: None, ..head });
    open(held, &plain::Head { days: Some(random::period(r)), ..head });
}

/// Days in a first line, which is dated whatever they are: 0 and 0 are no days.
fn in_sheets(held: &mut Held, r: &mut Random) {
    let season = [20_260_515, 20_261_020];
    for (days, number) in [
        (season, 0),
        ([0, 0], 19),
        ([0, season[1]], 19),
        ([season[0], 0], 19),
        ([999_999_999; 2], 19),
        ([20_000_229; 2], 0),
        ([21_000_229; 2], 19),
        ([season[1], season[0]], 20),
        ([season[0], season[1] + 10_000], 20),
    ] {
        let head = plain::Head { days: Some(days), ..random::undated_head(r) };
        let text = random::sheet_under(r, &head, 2);
        assert_eq!(plain::sheet_verdict(&text), (number, (number != 0) as usize), "{days:?}");
        ask_sheet(held, r, &text, if number == 0 { 0 } else { 1 });
    }
}

pub fn periods(held: &mut Held, r: &mut Random, times: u64, small: bool) {
    let calendar: Vec<u64> = (START..START + DAYS).map(day_at).collect();
    assert!(calendar.is_sorted() && (calendar[0], calendar[DAYS as usize - 1]) == (19_800_101, 21_001_231));
    every_day(held, r, &calendar, if small { 101 } else { 1 });
    in_sheets(held, r);
    for _ in 0..times {
        at_random(held, r, &calendar);
    }
    // no day of the calendar was left out
    assert!(small || held.periods.days == DAYS);
}
