//! Sixteen areas: each call both ways, and after it every lent number compared, and those behind them.
use super::*;

const LENT: usize = c::AREAS_NUMBERS;
const COMMON: usize = LENT - 1;
const COUNT: usize = 17;
const KM: usize = 18;

#[derive(Default)]
pub struct Tried {
    /// Lists of adds that went on until no area took any more.
    pub lists: u64,
    /// Areas in order made up, and areas out of order.
    pub made: u64,
    pub out_of_order: u64,
    /// Limits met and passed, by number.
    pub limits: [[u64; NUMBERS]; 2],
}

/// Areas of both sides: the numbers lent to the archive, and what the reference says that they are.
#[derive(Clone)]
struct Lent {
    ours: Box<[u64]>,
    wanted: Box<[u64]>,
    theirs: plain::Areas,
}

/// The place of a run's number.
fn at(area: usize, word: usize) -> usize {
    area * WORDS + word
}

fn write_run(run: &plain::Run, to: &mut [u64]) {
    let c::Run { trip, x, count, km, grams, rests, total_grams, total_rests } = c_run(run);
    let mut at = 0;
    for part in [&[trip][..], &x, &[count], &km, &grams, &rests, &total_grams, &total_rests] {
        to[at..at + part.len()].copy_from_slice(part);
        at += part.len();
    }
}

fn run_in(numbers: &[u64]) -> plain::Run {
    let mut run = c::Areas::zeros().runs[0];
    for (i, &n) in numbers.iter().enumerate() {
        *word(&mut run, i) = n;
    }
    plain_run(&run)
}

impl Lent {
    /// Areas as lent numbers, with so many random ones behind them.
    fn of(r: &mut Random, theirs: plain::Areas, behind: usize) -> Lent {
        let mut wanted: Box<[u64]> = (0..LENT + behind).map(|_| r.next()).collect();
        for (run, to) in theirs.runs.iter().zip(wanted.chunks_exact_mut(WORDS)) {
            write_run(run, to);
        }
        wanted[COMMON] = theirs.common;
        Lent { ours: wanted.clone(), wanted, theirs }
    }

    /// The first number that is not as wanted: its place, the archive's, the reference's.
    fn difference(&self) -> Option<(usize, u64, u64)> {
        if self.ours == self.wanted {
            return None;
        }
        let place = (0..self.wanted.len()).find(|&i| self.ours[i] != self.wanted[i])?;
        Some((place, self.ours[place], self.wanted[place]))
    }

    /// What the reference says after a call that it took.
    fn expect(&mut self, area: usize) {
        write_run(&self.theirs.runs[area], &mut self.wanted[at(area, 0)..at(area + 1, 0)]);
        self.wanted[COMMON] = self.theirs.common;
    }

    /// One number changed by hand on both sides.
    fn set(&mut self, place: usize, value: u64) {
        (self.ours[place], self.wanted[place]) = (value, value);
        if place == COMMON {
            self.theirs.common = value;
        } else {
            let area = place / WORDS;
            self.theirs.runs[area] = run_in(&self.wanted[at(area, 0)..at(area + 1, 0)]);
        }
    }

    /// Some numbers changed by hand; the totals as they were.
    fn with(&self, changes: &[(usize, u64)]) -> Lent {
        let mut lent = self.clone();
        changes.iter().for_each(|&(place, value)| lent.set(place, value));
        lent
    }

    /// Each total made that of its four kinds, which were changed: nothing is tried but the kinds.
    fn settled(mut self) -> Lent {
        for area in 0..16 {
            self.theirs.runs[area].settle();
            self.expect(area);
        }
        self.ours.clone_from(&self.wanted);
        self
    }
}

// ---- The calls both ways

fn open(held: &mut Held, lent: &mut Lent, head: &plain::Head) -> u64 {
    let ours = unsafe { c::haldurap_open_areas(lent.ours.as_mut_ptr(), LENT, c_head(head)) };
    let opened = plain::open_areas(head);
    let number = number_of(&opened);
    lent.theirs = opened.unwrap_or_default();
    (0..16).for_each(|area| lent.expect(area));
    held.same(OPEN_AREAS, number, (ours, lent.difference()), (number, None), || format!("{head:?}"));
    number
}

fn add(held: &mut Held, lent: &mut Lent, area: u64, record: &plain::Record) -> u64 {
    let ours = unsafe { c::haldurap_add_area(lent.ours.as_mut_ptr(), LENT, area, c_record(record)) };
    let number = number_of(&lent.theirs.add(area, record));
    if number == 0 {
        lent.expect(area as usize);
    }
    held.same(ADD_AREA, number, (ours, lent.difference()), (number, None), || {
        let counts: Vec<u64> = lent.theirs.runs.iter().map(|run| run.count).collect();
        format!("{record:?} to area {area} of {counts:?}, common use {}", lent.theirs.common)
    });
    number
}

/// The run of an area; its number, and both runs where it is given.
fn ask_run(held: &mut Held, lent: &Lent, area: u64) -> (u64, Option<(c::Run, plain::Run)>) {
    let ours = unsafe { c::haldurap_area_run(lent.ours.as_ptr(), LENT, area) };
    let theirs = lent.theirs.run(area);
    let number = number_of(&theirs);
    let wanted = c::RunAnswer { number, run: c_run(&theirs.clone().unwrap_or_default()) };
    held.same(AREA_RUN, number, (ours, lent.difference()), (wanted, None), || format!("area {area}"));
    (number, theirs.ok().map(|run| (ours.run, run)))
}

/// The run of an area, and every question about it.
fn ask_all_of(held: &mut Held, r: &mut Random, lent: &Lent, area: u64) {
    if let (_, Some((ours, theirs))) = ask_run(held, lent, area) {
        ask_all(held, r, ours, &theirs);
    }
}

/// Another length than that of areas: 16 from each call, and no number changed, neither lent nor behind.
fn ask_length(held: &mut Held, r: &mut Random, numbers: &[u64], length: usize) {
    let mut ours: Box<[u64]> = numbers.into();
    let (head, area, record) = (any_head(r), any_area(r), any_record(r));
    let input = || format!("{length} numbers lent, area {area}, {record:?}");
    let number = unsafe { c::haldurap_open_areas(ours.as_mut_ptr(), length, c_head(&head)) };
    held.same(OPEN_AREAS, 16, (number, &*ours == numbers), (16, true), || format!("{length} numbers lent, {head:?}"));
    let number = unsafe { c::haldurap_add_area(ours.as_mut_ptr(), length, area, c_record(&record)) };
    held.same(ADD_AREA, 16, (number, &*ours == numbers), (16, true), input);
    let answer = unsafe { c::haldurap_area_run(ours.as_ptr(), length, area) };
    let wanted = c::RunAnswer { number: 16, run: c_run(&plain::Run::default()) };
    held.same(AREA_RUN, 16, (answer, &*ours == numbers), (wanted, true), input);
}

fn any_head(r: &mut Random) -> plain::Head {
    if r.one_in(3) { random::damaged_head(r) } else { random::good_head(r) }
}

const NO_AREAS: [u64; 8] = [16, 17, 31, 256, 256 + 3, (1 << 32) + 3, 1 << 63, u64::MAX];

fn any_area(r: &mut Random) -> u64 {
    if r.one_in(20) { r.of(&NO_AREAS) } else { r.below(16) }
}

// ---- Lists of adds

fn takes(areas: &plain::Areas, area: u64) -> bool {
    areas.runs[area as usize].count < c::AREA_RECORDS || areas.common < c::COMMON_RECORDS
}

/// A list of adds to freshly opened areas until none takes any more, refused ones between.
fn list(held: &mut Held, r: &mut Random, behind: usize) {
    // opened over zeros, or over areas in use
    let before = if r.one_in(2) { plain::Areas::default() } else { random::any_areas_in_order(r) };
    let mut lent = Lent::of(r, before, behind);
    let head = random::good_head(r);
    open(held, &mut lent, &head);
    // the areas that come first: one, a few, all
    let first = r.of(&[1, 2, 5, 16]);
    let shift = r.below(16);
    let mut taken: [Vec<u64>; 16] = Default::default();
    loop {
        let taking: Vec<u64> = (0..16).filter(|&area| takes(&lent.theirs, area)).collect();
        if taking.is_empty() {
            break;
        }
        let area = match r.below(8) {
            0 => any_area(r),
            1..=2 => (r.below(first) + shift) % 16,
            _ => r.of(&taking),
        };
        let record = any_record(r);
        if add(held, &mut lent, area, &record) == 0 {
            taken[area as usize].extend(numbers(&record));
        }
        if r.one_in(500) {
            let area = any_area(r);
            ask_all_of(held, r, &lent, area);
        }
    }
    held.areas.lists += 1;
    assert_eq!(taken.iter().map(Vec::len).sum::<usize>(), 9 * 5000);
    // each area is the single run of its own list
    for (area, taken) in taken.iter().enumerate() {
        add(held, &mut lent, area as u64, &any_record(r));
        ask_all_of(held, r, &lent, area as u64);
        ask_list(held, &head, taken);
        if plain::add_list(&head, taken).map(|listed| listed.run).as_ref() != Ok(&lent.theirs.runs[area]) {
            held.differ(|| format!("area {area} is not the run of its own list"));
        }
    }
}

/// Areas in order that no list of adds gave, and a few adds to each.
fn made_up(held: &mut Held, r: &mut Random, behind: usize) {
    let areas = random::any_areas_in_order(r);
    assert!(areas.in_order());
    held.areas.made += 1;
    let mut lent = Lent::of(r, areas, behind);
    for _ in 0..12 {
        let area = any_area(r);
        let record = any_record(r);
        add(held, &mut lent, area, &record);
        ask_run(held, &lent, any_area(r));
    }
    let area = any_area(r);
    ask_all_of(held, r, &lent, area);
    if r.one_in(3) {
        open(held, &mut lent, &any_head(r));
        let record = any_record(r);
        add(held, &mut lent, area, &record);
    }
}

// ---- Numbers changed by hand

/// Asks about areas of which numbers were changed: 16 or not, as the reference says.
fn ask_changed(held: &mut Held, r: &mut Random, mut lent: Lent) -> u64 {
    let ordered = lent.theirs.in_order();
    held.areas.out_of_order += !ordered as u64;
    ask_run(held, &lent, any_area(r));
    let (number, _) = ask_run(held, &lent, r.below(16));
    assert_eq!(number == 0, ordered);
    let record = any_record(r);
    add(held, &mut lent, any_area(r), &record);
    number
}

/// Every number of areas at and over its limits, and beside what it was; kinds with their total and without.
fn changed(held: &mut Held, r: &mut Random, base: &Lent, step: usize) {
    for place in (r.place(step)..LENT).step_by(step) {
        let now = base.wanted[place];
        let word = place % WORDS;
        if place != COMMON && word >= TOTAL_GRAMS {
            for value in [999_999_999, 1_000_000_000, 1 << 63, u64::MAX, now + 1, now.wrapping_sub(1)] {
                ask_changed(held, r, base.with(&[(place, value)]));
            }
            continue;
        }
        let most = if place == COMMON { 200 } else { limit(word, base.wanted[at(place / WORDS, COUNT)]) };
        let far = most + 1 + r.scaled(0, 1 << 40);
        for value in [most, most + 1, far, 1 << 63, u64::MAX, now + 1, now.wrapping_sub(1)] {
            ask_changed(held, r, base.with(&[(place, value)]).settled());
        }
        if place != COMMON && word >= GRAMS {
            ask_changed(held, r, base.with(&[(place, now ^ 1)]));
        }
        // grams at their limit, without a rest and with one
        if place != COMMON && (GRAMS..RESTS).contains(&word) {
            for rest in [0, 1, 999_999_999] {
                ask_changed(held, r, base.with(&[(place, most), (place + 60, rest)]).settled());
            }
        }
    }
}

// ---- Limits met and passed

/// Counts a limit of a number, passed where it fits, and holds the case to what it was made for.
fn edge(held: &mut Held, number: u64, fits: bool, found: u64, otherwise: u64) {
    assert_eq!(found, if fits { number } else { otherwise }, "limit of {number}");
    held.areas.limits[fits as usize][number as usize] += 1;
}

/// Records at the limits of 3 to 8, and over them.
fn record_limits() -> Vec<(u64, bool, plain::Record)> {
    let good = plain::Record { class: 2, vehicles: 1000, km: 1000, shares: [40, 40, 20], speeds: [20, 60, 100] };
    let mut limits = Vec::new();
    for (class, fits) in [(1, false), (7, false), (0, true), (8, true), (u64::MAX, true)] {
        limits.push((3, fits, plain::Record { class, ..good }));
    }
    for (vehicles, fits) in [(1, false), (1_000_000, false), (0, true), (1_000_001, true)] {
        limits.push((4, fits, plain::Record { vehicles, ..good }));
    }
    for (km, fits) in [(1, false), (999_999, false), (0, true), (1_000_000, true)] {
        limits.push((5, fits, plain::Record { km, ..good }));
    }
    for (vehicles, km, fits) in [(1_000_000, 1000, false), (1001, 999_000, false), (1001, 999_001, true), (999_001, 1001, true)] {
        limits.push((6, fits, plain::Record { vehicles, km, ..good }));
    }
    for (shares, fits) in [([100, 0, 0], false), ([0, 0, 100], false), ([101, 0, 0], true), ([40, 40, 19], true), ([40, 40, 21], true)] {
        limits.push((7, fits, plain::Record { shares, ..good }));
    }
    for (road, (speed, fits)) in (0..3).flat_map(|road| [(10, false), (130, false), (9, true), (131, true)].map(|limit| (road, limit))) {
        let mut speeds = good.speeds;
        speeds[road] = speed;
        limits.push((8, fits, plain::Record { speeds, ..good }));
    }
    limits
}

/// Counts of which one area's own and the common use are these.
fn counts_with(area: usize, own: u64, common: u64) -> [u64; 16] {
    let mut counts = [300, 0, 299, 1, 7, 300, 0, 0, 12, 255, 300, 0, 3, 1, 299, 300];
    counts[area] = own;
    counts[(area + 5) % 16] = 300 + common - own.saturating_sub(300);
    counts
}

/// Numbers of areas that fit each other or not: what 16 covers.
fn order_limits(r: &mut Random, base: &Lent) -> Vec<(bool, Vec<(usize, u64)>)> {
    let mut limits = Vec::new();
    let alike = |word: usize, value: u64| (0..16).map(|area| (at(area, word), value)).collect::<Vec<_>>();
    let count = |area: usize| base.wanted[at(area, COUNT)];
    // one head: L and each X of one area, then of all of them
    for area in 0..16 {
        let trip = base.wanted[at(area, 0)];
        limits.push((true, vec![(at(area, 0), if trip == 200 { 199 } else { trip + 1 })]));
        for i in 1..=16 {
            let x = base.wanted[at(area, i)];
            limits.push((true, vec![(at(area, i), if x == 0 { 1 } else { x - 1 })]));
        }
    }
    for (trip, fits) in [(10, false), (200, false), (9, true), (201, true), (0, true), (u64::MAX, true)] {
        limits.push((fits, alike(0, trip)));
    }
    for i in 1..=16 {
        limits.push((false, alike(i, 4_900_000_000)));
        limits.push((true, alike(i, 4_900_000_001)));
    }
    // the common use, alone and with the counts
    let common = base.theirs.common;
    assert!((1..199).contains(&common));
    for other in [common - 1, common + 1, 0, 200, u64::MAX, common + (1 << 32)] {
        limits.push((true, vec![(COMMON, other)]));
    }
    for area in (0..16).filter(|&area| count(area) >= 300) {
        let left = 200 - common;
        for (more, fitted, fits) in [(1, 1, false), (1, 0, true), (1, 2, true), (left, left, false), (left + 1, left + 1, true)] {
            limits.push((fits, vec![(at(area, COUNT), count(area) + more), (COMMON, common + fitted)]));
        }
        limits.push((true, vec![(at(area, COUNT), 5001)]));
        limits.push((true, vec![(at(area, COUNT), 5001), (COMMON, common + 5001 - count(area))]));
    }
    // counts whose sum would fit if it wrapped
    for half in [1 << 63, 1 << 31] {
        limits.push((true, vec![(at(1, COUNT), half + 300), (at(4, COUNT), half + 300)]));
    }
    limits.push((true, vec![(at(1, COUNT), u64::MAX), (COMMON, common.wrapping_sub(301))]));
    // kilometres and sums of an area with records, at each place
    for word in KM..TOTAL_GRAMS {
        let area = r.of(&[0, 2, 9, 15]);
        let most = limit(word, count(area));
        let rest = if (GRAMS..RESTS).contains(&word) { vec![(at(area, word + 60), 0)] } else { vec![] };
        let with = |value| [vec![(at(area, word), value)], rest.clone()].concat();
        limits.push((false, if word < RESTS { with(most) } else { vec![(at(area, word - 60), 0), (at(area, word), most)] }));
        limits.push((true, with(most + 1)));
        limits.push((true, with(u64::MAX)));
        if (GRAMS..RESTS).contains(&word) {
            limits.push((false, vec![(at(area, word), most - 1), (at(area, word + 60), 999_999_999)]));
            limits.push((true, vec![(at(area, word), most), (at(area, word + 60), 1)]));
        }
    }
    // sums that would be small together if they wrapped
    for value in [1 << 63, 1 << 62, u64::MAX - 73_741_823] {
        limits.push((true, (0..4).map(|i| (at(9, GRAMS + 13 * i), value)).collect()));
        limits.push((true, (0..4).map(|i| (at(9, RESTS + 13 * i), value)).collect()));
    }
    // one number in an area without records
    for word in KM..TOTAL_GRAMS {
        let area = r.of(&[1, 6, 11]);
        assert_eq!(count(area), 0);
        limits.push((false, vec![(at(area, word), 0)]));
        limits.push((true, vec![(at(area, word), 1)]));
    }
    limits
}

/// Each total of each area broken in each way, and as it was.
fn total_limits(base: &Lent) -> Vec<(bool, Vec<(usize, u64)>)> {
    let mut limits = Vec::new();
    for (area, run) in base.theirs.runs.iter().enumerate() {
        let run = c_run(run);
        for i in 0..15 {
            let with = |(grams, rest)| vec![(at(area, TOTAL_GRAMS + i), grams), (at(area, TOTAL_RESTS + i), rest)];
            limits.push((false, with((run.total_grams[i], run.total_rests[i]))));
            limits.extend(broken_totals(&run, i).into_iter().map(|way| (true, with(way))));
        }
    }
    limits
}

fn limits(held: &mut Held, r: &mut Random, behind: usize, small: bool) {
    let base = |r: &mut Random, counts| {
        let areas = random::areas_of_counts(r, counts);
        Lent::of(r, areas, behind)
    };
    // 1 and 2, over areas in use
    let temps = |month: usize, t: i64| {
        let mut temps = [100; 12];
        temps[month] = t;
        temps
    };
    for (trip, fits) in [(10, false), (200, false), (9, true), (201, true)] {
        let mut lent = base(r, [20; 16]);
        let found = open(held, &mut lent, &plain::Head::year(trip, [100; 12]));
        edge(held, 1, fits, found, 0);
        assert_eq!(open(held, &mut lent, &plain::Head::year(9, temps(3, 401))), 1);
    }
    for month in 0..12 {
        for (t, fits) in [(-300, false), (400, false), (-301, true), (401, true)] {
            let mut lent = base(r, [300; 16]);
            let found = open(held, &mut lent, &plain::Head::year(120, temps(month, t)));
            edge(held, 2, fits, found, 0);
            if fits {
                // areas of zeros are in order for no call
                let record = any_record(r);
                assert_eq!((add(held, &mut lent, month as u64, &record), ask_run(held, &lent, month as u64).0), (16, 16));
            }
        }
    }
    // 19 and 20, over areas in use, behind 1 and 2
    for (number, fits, days) in [
        (19, false, [19_800_101, 19_801_231]),
        (19, false, [21_000_101, 21_001_231]),
        (19, false, [20_000_229, 20_000_229]),
        (19, true, [19_791_231, 19_800_101]),
        (19, true, [21_001_231, 21_010_101]),
        (19, true, [21_000_229, 21_000_301]),
        (19, true, [20_260_501, 20_260_532]),
        (19, true, [0, 20_260_501]),
        (19, true, [20_260_631, 20_260_501]),
        (20, false, [20_260_501, 20_260_501]),
        (20, false, [20_260_430, 20_260_501]),
        (20, true, [20_260_501, 20_260_430]),
        (20, true, [20_261_231, 20_270_101]),
        (20, true, [20_260_501, 20_250_501]),
    ] {
        let dated = |trip, temps| plain::Head { trip, temps, days: Some(days) };
        let mut lent = base(r, [300; 16]);
        let found = open(held, &mut lent, &dated(120, [100; 12]));
        edge(held, number, fits, found, 0);
        let record = any_record(r);
        assert_eq!(add(held, &mut lent, 3, &record) == 16, fits);
        assert_eq!([open(held, &mut lent, &dated(9, [401; 12])), open(held, &mut lent, &dated(120, temps(7, 401)))], [1, 2]);
    }
    // 3 to 8 in an area that takes and in a full one; 17 and 16 before them
    for (number, fits, record) in record_limits() {
        let area = r.below(16);
        let (own, common, full) = (r.of(&[0, 299]), r.of(&[0, 200]), r.of(&[300, 301, 500]));
        let mut lent = base(r, counts_with(area as usize, own, common));
        let found = add(held, &mut lent, area, &record);
        edge(held, number, fits, found, 0);
        let mut lent = base(r, counts_with(area as usize, full, 200));
        let found = add(held, &mut lent, area, &record);
        edge(held, number, fits, found, 18);
        let found = add(held, &mut lent, r.of(&NO_AREAS), &record);
        edge(held, 17, true, found, 0);
        lent.set(COMMON, r.of(&[199, 201]));
        let found = [add(held, &mut lent, area, &record), add(held, &mut lent, 16, &record)];
        assert_eq!(found, [16; 2]);
    }
    // 17
    let mut lent = base(r, counts_with(2, 150, 31));
    let good = random::good_record(r);
    for area in [0, 7, 15].into_iter().chain(NO_AREAS) {
        for found in [add(held, &mut lent, area, &good), ask_run(held, &lent, area).0] {
            edge(held, 17, area > 15, found, 0);
        }
    }
    // 18: the area's own and the common use
    let uses = [(0, 200), (299, 0), (299, 200), (300, 0), (300, 199), (300, 200), (301, 1), (301, 199), (301, 200), (499, 199), (500, 200)];
    for (own, common) in uses {
        for area in 0..16 {
            let mut lent = base(r, counts_with(area, own, common));
            let found = add(held, &mut lent, area as u64, &random::good_record(r));
            edge(held, 18, own >= 300 && common == 200, found, 0);
        }
    }
    // 16 by what the numbers are, and by how many there are
    let lent = base(r, counts_with(2, 150, 31));
    for (fits, changes) in order_limits(r, &lent).into_iter().step_by(if small { 7 } else { 1 }) {
        let found = ask_changed(held, r, lent.with(&changes).settled());
        edge(held, 16, fits, found, 0);
    }
    for (fits, changes) in total_limits(&lent).into_iter().step_by(if small { 31 } else { 1 }) {
        let found = ask_changed(held, r, lent.with(&changes));
        edge(held, 16, fits, found, 0);
    }
    for length in [0, 1, 170, 171, 172, 2257, 2735, 2736, 2738, 2739, 2880, 5474, r.place(LENT)] {
        // what is lent and no more, then with numbers behind it
        for room in [length, length.max(LENT) + 9] {
            let mut numbers: Vec<u64> = (0..room).map(|_| r.next()).collect();
            let known = room.min(LENT);
            numbers[..known].copy_from_slice(&lent.wanted[..known]);
            ask_length(held, r, &numbers, length);
        }
    }
}

/// The calls for Rust, whose areas are a struct: the numbers of a struct and of its runs are where the archive has them.
fn structs(held: &mut Held, r: &mut Random) {
    let head = random::good_head(r);
    let mut theirs = plain::open_areas(&head).expect("a head in range");
    let mut ours = c::Areas::zeros();
    assert_eq!(c::open_areas(&mut ours, c_head(&head)), 0);
    for _ in 0..400 {
        let (area, record) = (if r.one_in(2) { 11 } else { any_area(r) }, any_record(r));
        let number = number_of(&theirs.add(area, &record));
        let found = c::add_area(&mut ours, area, c_record(&record));
        let wanted = c::Areas { runs: std::array::from_fn(|i| c_run(&theirs.runs[i])), common: theirs.common };
        held.same(ADD_AREA, number, (found, ours == wanted), (number, true), || format!("{record:?} to area {area} of a struct"));
        let run = theirs.run(area);
        let number = number_of(&run);
        let wanted = c::RunAnswer { number, run: c_run(&run.unwrap_or_default()) };
        held.same(AREA_RUN, number, c::area_run(&ours, area), wanted, || format!("area {area} of a struct"));
    }
}

pub fn areas(held: &mut Held, r: &mut Random, small: bool) {
    // in a hundredth nothing stands behind the lent numbers, so that valgrind sees who reads there
    let behind = if small { 0 } else { 8 };
    for _ in 0..if small { 0 } else { 40 } {
        list(held, r, behind);
    }
    for _ in 0..if small { 20 } else { 4000 } {
        made_up(held, r, behind);
    }
    for _ in 0..if small { 1 } else { 3 } {
        let areas = random::any_areas_in_order(r);
        let base = Lent::of(r, areas, behind);
        changed(held, r, &base, if small { 101 } else { 1 });
    }
    limits(held, r, behind, small);
    structs(held, r);
}
