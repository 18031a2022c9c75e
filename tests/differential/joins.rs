//! Joins: trees of histories at random, both ways, every word of every answer compared. A history's own tally, never a run, tells which
//! of its adds and joins are taken, and its exact sums are what the totals are held against.
use super::*;

const COUNT: usize = 17;

#[derive(Default)]
pub struct Tried {
    /// Trees of histories, the lists in them, lists of areas among these, further adds to runs that were joined.
    pub trees: u64,
    pub lists: u64,
    pub of_areas: u64,
    pub further: u64,
    /// Histories that were held against their exact sums, and those whose heads come to other sums.
    pub held: u64,
    pub own_heads: u64,
    /// Joins of histories by number.
    pub of_histories: [u64; NUMBERS],
    /// Pairs that were exchanged, triples in both shapes, fresh runs on either side.
    pub exchanged: u64,
    pub shapes: u64,
    pub fresh: u64,
    /// Pairs of runs made up, pairs with a run out of order, those of them by a total alone, areas joined whole.
    pub made: u64,
    pub out_of_order: u64,
    pub broken_totals: u64,
    pub areas: u64,
    /// Limits met and passed, by number.
    pub limits: [[u64; NUMBERS]; 2],
}

impl Tried {
    pub fn text(&self) -> String {
        let Tried { trees, lists, of_areas, further, held, own_heads, exchanged, shapes, fresh, made, out_of_order, broken_totals, areas, .. } = self;
        format!(
            "trees of histories: {trees}, with {lists} lists ({of_areas} of areas), {further} adds to joined runs; histories held against exact \
             sums: {held}, {own_heads} of them with cold grams by two heads of other sums\njoins exchanged: {exchanged}, in both shapes: {shapes}, with a fresh run: \
             {fresh}; pairs made up: {made}; pairs out of order: {out_of_order}, by a total alone: {broken_totals}; sixteen areas joined: {areas}"
        )
    }
}

/// The same run on both sides.
#[derive(Clone)]
struct Both {
    ours: c::Run,
    theirs: plain::Run,
}

impl Both {
    fn of(theirs: plain::Run) -> Both {
        Both { ours: c_run(&theirs), theirs }
    }

    /// Words changed by hand on both sides, none of them a total's: the totals follow their kinds.
    fn with(&self, changes: &[(usize, u64)]) -> Both {
        let mut ours = self.ours;
        changes.iter().for_each(|&(place, value)| *word(&mut ours, place) = value);
        let ours = settled(ours);
        Both { ours, theirs: plain_run(&ours) }
    }

    /// Total i changed by hand on both sides.
    fn with_total(&self, i: usize, way: (u64, u64)) -> Both {
        let ours = with_total(&self.ours, i, way);
        Both { ours, theirs: plain_run(&ours) }
    }
}

/// Joins both ways; the number, and the run that is given back.
fn join(held: &mut Held, first: &Both, second: &Both) -> (u64, Both) {
    let ours = c::haldurap_join(first.ours, second.ours);
    let theirs = plain::join(&first.theirs, &second.theirs);
    let number = number_of(&theirs);
    // refused, it is the first run
    let theirs = theirs.unwrap_or_else(|_| first.theirs.clone());
    held.same(JOIN, number, ours, c::RunAnswer { number, run: c_run(&theirs) }, || format!("{:?} and {:?}", first.ours, second.ours));
    (number, Both { ours: ours.run, theirs })
}

/// Joins in both orders: where they are taken, the same run. The number, and the first one's run.
fn join_exchanged(held: &mut Held, first: &Both, second: &Both) -> (u64, Both) {
    let (number, run) = join(held, first, second);
    let (again, other) = join(held, second, first);
    held.joins.exchanged += 1;
    if again != number || (number == 0 && run.ours != other.ours) {
        held.differ(|| format!("joined in another order: {:?} and {:?}", first.ours, second.ours));
    }
    (number, run)
}

/// Three runs in both shapes: the same run where no join is refused, and where the inner ones are taken the outer ones are alike.
fn join_three(held: &mut Held, a: &Both, b: &Both, c: &Both) {
    let (first, ab) = join(held, a, b);
    let (second, bc) = join(held, b, c);
    if (first, second) != (0, 0) {
        return;
    }
    held.joins.shapes += 1;
    let (left, right) = (join(held, &ab, c), join(held, a, &bc));
    if left.0 != right.0 || (left.0 == 0 && left.1.ours != right.1.ours) {
        held.differ(|| format!("joined in another shape: {:?}, {:?} and {:?}", a.ours, b.ours, c.ours));
    }
}

// ---- Heads with the same L and X

/// Four T that come to the same as the other four in every X, but not in the exact sum of NOX of LPG (L 200, all others 100).
const COLDER: [i64; 4] = [-121, -101, -30, 72];
const MILDER: [i64; 4] = [-168, -46, 15, 19];
/// Three T of a period of 90 days, 30 in each month, and twelve without dates: the same X, and another exact sum of NOX of LPG.
const THREE: [i64; 3] = [-100, 0, 190];
const TWELVE: [i64; 12] = [-157, -116, -72, -47, -23, -19, -11, 83, 158, 186, 189, 189];
/// January, March, May, July, August, October, December.
const LONG_MONTHS: [usize; 7] = [0, 2, 4, 6, 7, 9, 11];

fn shuffle<T>(r: &mut Random, list: &mut [T]) {
    for i in (1..list.len()).rev() {
        list.swap(i, r.place(i + 1));
    }
}

fn shuffled(r: &mut Random, mut temps: [i64; 12]) -> [i64; 12] {
    shuffle(r, &mut temps);
    temps
}

/// Two to four heads with the same L and X, of few different weights.
fn family(r: &mut Random) -> Vec<plain::Head> {
    let several = r.from_to(2, 4);
    let mut heads: Vec<plain::Head> = match r.below(6) {
        // months exchanged
        0 => {
            let head = random::undated_head(r);
            (0..several).map(|_| plain::Head { temps: shuffled(r, head.temps), ..head }).collect()
        }
        // the same T in every month, in any period and in none
        1 => {
            let head = plain::Head::year(r.from_to(10, 200), [r.below(701) as i64 - 300; 12]);
            (0..several).map(|_| plain::Head { days: if r.one_in(3) { None } else { Some(random::period(r)) }, ..head }).collect()
        }
        // other exact sums, without dates
        2 => {
            let temps = |r: &mut Random, four: [i64; 4]| shuffled(r, [four.as_slice(), &[100; 8]].concat().try_into().unwrap());
            [COLDER, MILDER, COLDER, MILDER].into_iter().map(|four| plain::Head::year(200, temps(r, four))).collect()
        }
        // the same in a whole year by dates, in months of 31 days
        3 => {
            let year = r.of(&[1981, 2000, 2026, 2100]) * 10_000;
            let heads = [COLDER, MILDER, COLDER, MILDER].map(|four| {
                let mut months = LONG_MONTHS;
                shuffle(r, &mut months);
                let mut temps = [100; 12];
                months.iter().zip(four).for_each(|(&month, t)| temps[month] = t);
                plain::Head { trip: 200, temps, days: Some([year + 101, year + 1231]) }
            });
            heads.to_vec()
        }
        // 2 May to 30 July, and without dates
        4 => {
            let mut heads = vec![plain::Head::year(200, shuffled(r, TWELVE)), plain::Head::year(200, shuffled(r, TWELVE))];
            for _ in 0..2 {
                let mut temps = random::undated_head(r).temps;
                let mut three = THREE;
                shuffle(r, &mut three);
                temps[4..7].copy_from_slice(&three);
                let year = r.from_to(1980, 2100) * 10_000;
                heads.push(plain::Head { trip: 200, temps, days: Some([year + 502, year + 730]) });
            }
            heads
        }
        // a dated head, with another T in a month that has no day of the period
        _ => {
            let head = random::dated_head(r);
            let weights = plain::month_weights(head.days);
            let changed = |r: &mut Random| {
                let mut temps = head.temps;
                (0..12).filter(|&month| weights[month] == 0).for_each(|month| temps[month] = r.below(701) as i64 - 300);
                plain::Head { temps, ..head }
            };
            (0..several).map(|_| changed(r)).collect()
        }
    };
    shuffle(r, &mut heads);
    let fresh = heads.iter().map(|head| plain::open(head).expect("a head of a family"));
    assert!(fresh.collect::<Vec<_>>().windows(2).all(|two| two[0] == two[1]), "heads of a family differ: {heads:?}");
    heads
}

/// A head that is near one of a family, or not. Another period is not told apart where all T are the same.
fn stranger(r: &mut Random, head: &plain::Head) -> plain::Head {
    let mut other = *head;
    match r.below(4) {
        0 => other.trip = if head.trip == 200 { 199 } else { head.trip + 1 },
        1 => {
            let month = r.place(12);
            other.temps[month] = if head.temps[month] == 400 { 399 } else { head.temps[month] + 1 };
        }
        2 if head.temps != [head.temps[0]; 12] => other.days = if head.days.is_some() { None } else { Some(random::period(r)) },
        _ => other = random::good_head(r),
    }
    other
}

/// Pairs of heads that differ in one X, or in those that are cut off together: three T of the summer (or the winter) with the same sum
/// and squares.
fn apart(r: &mut Random) -> ([plain::Head; 2], usize) {
    let (start, places, at) = r.of(&[(-36, 1, 0), (204, 1, 5), (207, 1, 5), (227, 1, 5), (293, 1, 5), (231, 2, 5), (297, 4, 5)]);
    let with = |three: [i64; 3]| {
        // in the winter all but three are above -33, in the summer all are below 200
        let mut temps = [-20, -10, 10, 60, 110, 120, 110, 140, 130, 80, 30, 0];
        temps[at..at + 3].copy_from_slice(&three);
        plain::Head::year(120, temps)
    };
    let heads = [with([start, start + 4, start + 5]), with([start + 1, start + 2, start + 6])];
    (if r.one_in(2) { heads } else { [heads[1], heads[0]] }, places)
}

// ---- Trees of histories

/// A run of both sides and its history.
#[derive(Clone)]
struct Node {
    run: Both,
    history: plain::History,
}

impl Node {
    /// Count, kilometres and totals as the history has them.
    fn ask(&self, held: &mut Held) {
        let Node { run, history } = self;
        held.joins.held += 1;
        held.joins.own_heads += history.has_own_heads() as u64;
        if (run.ours.count, run.ours.km) != (history.count, history.km) || c::haldurap_in_order(run.ours) != 1 {
            held.differ(|| format!("count, kilometres or order is not that of the history: {:?}", run.ours));
        }
        ask_distance(held, run.ours, |fuel, quantity, grams| history.is_near(fuel, quantity, grams));
    }

    /// An add both ways; whether it is taken is told by the history.
    fn add(&mut self, held: &mut Held, record: &plain::Record) {
        let number = add(held, &mut self.run.ours, &mut self.run.theirs, record);
        assert_eq!(number, number_of(&self.history.add(record)), "an add of a history");
    }

    /// A join both ways; whether it is taken is told by the histories.
    fn join(&self, held: &mut Held, other: &Node) -> Node {
        let (number, run) = join_exchanged(held, &self.run, &other.run);
        let mut history = self.history.clone();
        assert_eq!(number, number_of(&history.join(&other.history)), "a join of histories");
        held.joins.of_histories[number as usize] += 1;
        Node { run, history }
    }
}

/// Records of a list, some of them damaged.
fn any_records(r: &mut Random, n: u64) -> Vec<plain::Record> {
    (0..n).map(|_| any_record(r)).collect()
}

/// Records that are taken while there is room, most of them alike.
fn good_records(r: &mut Random, n: u64) -> Vec<plain::Record> {
    let usual = random::good_record(r);
    (0..n).map(|_| if r.one_in(20) { random::good_record(r) } else { usual }).collect()
}

/// A list of adds under a head.
fn list(held: &mut Held, head: &plain::Head, records: &[plain::Record]) -> Node {
    held.joins.lists += 1;
    let (ours, theirs) = open(held, head).expect("a head that is taken");
    let mut node = Node { run: Both { ours, theirs }, history: plain::History::of(head) };
    for record in records {
        node.add(held, record);
    }
    node
}

/// The run of an area, of areas under a head to which some records are added.
fn area(held: &mut Held, r: &mut Random, head: &plain::Head) -> Node {
    held.joins.lists += 1;
    held.joins.of_areas += 1;
    let mut ours = c::Areas::zeros();
    let mut theirs = plain::open_areas(head).expect("a head that is taken");
    assert_eq!(c::open_areas(&mut ours, c_head(head)), 0);
    let wanted = r.below(16);
    let mut history = plain::History::of(head);
    for _ in 0..r.from_to(0, 12) {
        let (area, record) = (if r.one_in(3) { r.below(17) } else { wanted }, any_record(r));
        let number = number_of(&theirs.add(area, &record));
        held.same(ADD_AREA, number, c::add_area(&mut ours, area, c_record(&record)), number, || format!("{record:?} to area {area}"));
        if area == wanted {
            // far below 300, where 18 does not fit
            assert_eq!(number, number_of(&history.add(&record)));
        }
    }
    let (run, theirs) = (c::area_run(&ours, wanted), theirs.run(wanted).expect("areas in order"));
    held.same(AREA_RUN, 0, run, c::RunAnswer { number: 0, run: c_run(&theirs) }, || format!("area {wanted}"));
    Node { run: Both { ours: run.run, theirs }, history }
}

/// A tree of this depth at most. Its lists have so many records in all, where that is told, else few.
fn tree(held: &mut Held, r: &mut Random, heads: &[plain::Head], depth: u64, total: Option<u64>) -> Node {
    let mut node = if depth == 0 || (total.is_none() && r.one_in(4)) {
        let head = r.of(heads);
        match total {
            Some(n) => list(held, &head, &good_records(r, n)),
            None if r.one_in(6) => area(held, r, &head),
            None => {
                // now and then without a record, or under a head that is not of the family
                let head = if r.one_in(20) { stranger(r, &head) } else { head };
                let n = if r.one_in(8) { 0 } else { r.from_to(1, 9) };
                list(held, &head, &any_records(r, n))
            }
        }
    } else {
        let part = total.map(|n| if r.one_in(4) { r.of(&[0, 1, n - n.min(1), n]).min(n) } else { r.from_to(0, n) });
        let first = tree(held, r, heads, depth - 1, part);
        let second = tree(held, r, heads, depth - 1, total.map(|n| n - part.unwrap_or(0)));
        if r.one_in(6) {
            let third = tree(held, r, heads, 0, None);
            join_three(held, &first.run, &second.run, &third.run);
        }
        first.join(held, &second)
    };
    node.ask(held);
    // a fresh run of a head of the family on either side
    if r.one_in(4) {
        let head = r.of(heads);
        let fresh = Node { run: Both::of(plain::open(&head).expect("a head of a family")), history: plain::History::of(&head) };
        if node.run.theirs.same_head(&fresh.run.theirs) {
            held.joins.fresh += 2;
            let (left, right) = (fresh.join(held, &node), node.join(held, &fresh));
            if left.run.ours != node.run.ours || right.run.ours != node.run.ours {
                held.differ(|| format!("a fresh run changes {:?}", node.run.ours));
            }
            // a join with a fresh run: the next adds are measured by its head
            if total.is_none() && r.one_in(2) {
                node = left;
            }
        }
    }
    // further adds, measured by any head with the run's L and X
    if total.is_none() && r.one_in(3) {
        let head = r.of(heads);
        if node.run.theirs.same_head(&plain::open(&head).expect("a head of a family")) {
            node.history.measure_by(&head);
        }
        for _ in 0..r.from_to(1, 4) {
            let record = any_record(r);
            held.joins.further += 1;
            node.add(held, &record);
        }
        node.ask(held);
    }
    node
}

fn trees(held: &mut Held, r: &mut Random, times: u64, full: u64) {
    for i in 0..times {
        let heads = family(r);
        let depth = r.from_to(1, 4);
        let node = tree(held, r, &heads, depth, None);
        held.joins.trees += 1;
        if i % 16 == 0 {
            ask_all(held, r, node.run.ours, &node.run.theirs);
        }
    }
    // records near 5,000 in all: taken up to there, 22 beyond
    for i in 0..full {
        let heads = family(r);
        let total = [4998, 4999, 5000, 5000, 5001, 5001, 5002, 5100][i as usize % 8];
        let depth = r.from_to(1, 3);
        let mut node = tree(held, r, &heads, depth, Some(total));
        held.joins.trees += 1;
        // a few more, up to 9
        for _ in 0..3 {
            let record = any_record(r);
            node.add(held, &record);
        }
        node.ask(held);
        ask_all(held, r, node.run.ours, &node.run.theirs);
    }
    // heads that differ in one X, or in few
    for _ in 0..times / 4 {
        let (heads, places) = apart(r);
        let [first, second] = heads.map(|head| list(held, &head, &any_records(r, 2)));
        let [one, other] = [&first, &second].map(|node| c_run(&node.run.theirs).x);
        assert_eq!((0..16).filter(|&i| one[i] != other[i]).count(), places, "{heads:?}");
        let joined = first.join(held, &second);
        assert_eq!(joined.run.theirs, first.run.theirs, "a refused join");
    }
}

// ---- Runs that no history gave

/// Counts a limit of a number, passed where it fits, and holds the case to what it was made for.
fn edge(held: &mut Held, number: u64, fits: bool, found: u64) {
    assert_eq!(found, if fits { number } else { 0 }, "limit of {number}");
    held.joins.limits[fits as usize][number as usize] += 1;
}

/// Two runs in order with one L and one X, and these counts.
fn pair(r: &mut Random, counts: [u64; 2]) -> [Both; 2] {
    let head = random::run_of_count(r, 0);
    counts.map(|count| Both::of(plain::Run { trip: head.trip, x: head.x, x_class_3: head.x_class_3, ..random::run_of_count(r, count) }))
}

/// Counts together below, at and above 5,000.
fn counts(r: &mut Random) -> [u64; 2] {
    let one = if r.one_in(3) { r.of(&[0, 1, 2500, 4999, 5000]) } else { r.from_to(0, 5000) };
    let other = match r.below(4) {
        0 => r.from_to(0, 5000),
        1 => r.scaled(0, 5000 - one),
        _ => (5000 - one + r.from_to(0, 2)).saturating_sub(1).min(5000),
    };
    if r.one_in(2) { [one, other] } else { [other, one] }
}

fn made_up(held: &mut Held, r: &mut Random, times: u64) {
    for i in 0..times {
        held.joins.made += 1;
        let [one, other] = counts(r);
        let [first, second] = pair(r, [one, other]);
        let (number, joined) = join_exchanged(held, &first, &second);
        edge(held, 22, one + other > 5000, number);
        if i % 8 == 0 {
            // in order, and a run like any other
            ask_order(held, joined.ours, &joined.theirs);
            let (mut ours, mut theirs) = (joined.ours, joined.theirs.clone());
            for _ in 0..2 {
                let record = any_record(r);
                add(held, &mut ours, &mut theirs, &record);
            }
            ask_all(held, r, joined.ours, &joined.theirs);
        }
        // with itself, and a third one
        let (_, doubled) = join(held, &first, &first);
        join(held, &doubled, &second);
        let rest = 5000 - (one + other).min(5000);
        let third = Both::of(plain::Run { trip: first.theirs.trip, x: first.theirs.x, x_class_3: first.theirs.x_class_3, ..random::run_of_count(r, rest) });
        join_three(held, &first, &second, &third);
        // any two runs in order: mostly of other heads
        let other = Both::of(random::any_run_in_order(r));
        join_exchanged(held, &first, &other);
    }
}

/// Rests that reach a gram together or do not, at each place; sums and kilometres at the limits of both.
fn sums(held: &mut Held, r: &mut Random) {
    let rests = [(999_999_999, 1), (999_999_999, 999_999_999), (0, 999_999_999), (999_999_998, 1), (500_000_000, 500_000_000), (499_999_999, 500_000_000), (0, 0)];
    for place in 0..60 {
        for (one, other) in rests {
            let [first, second] = pair(r, [7, 9]);
            let grams = r.of(&[0, 1, 999_999_999_999]);
            let [first, second] = [(first, one), (second, other)].map(|(run, rest)| run.with(&[(GRAMS + place, grams), (RESTS + place, rest)]));
            let (number, joined) = join_exchanged(held, &first, &second);
            assert_eq!(number, 0);
            let (carry, rest) = ((one + other) / 1_000_000_000, (one + other) % 1_000_000_000);
            assert_eq!(joined.theirs.sums.as_flattened().as_flattened()[place], plain::Sum { grams: 2 * grams + carry, rest });
        }
    }
    for [one, other] in [[1, 1], [2500, 2500], [4999, 1], [1, 4999], [5000, 0]] {
        for place in 18..RESTS {
            let [first, second] = pair(r, [one, other]);
            // at the limit without a rest, in both and in one
            let full = |run: &Both, count| {
                let rest = if place < GRAMS { vec![] } else { vec![(place + 60, 0)] };
                run.with(&[vec![(place, limit(place, count))], rest].concat())
            };
            let (first, second) = (full(&first, one), if r.one_in(2) { full(&second, other) } else { second });
            let (number, joined) = join_exchanged(held, &first, &second);
            assert!(number == 0 && joined.theirs.in_order());
            ask_order(held, joined.ours, &joined.theirs);
        }
    }
    // every sum at its limit: the largest run there is
    for [one, other] in [[2500, 2500], [4999, 1], [3000, 2000]] {
        let [first, second] = pair(r, [one, other]);
        let changes = |count| (18..TOTAL_GRAMS).map(|place| (place, if place < RESTS { limit(place, count) } else { 0 })).collect::<Vec<_>>();
        let (number, joined) = join_exchanged(held, &first.with(&changes(one)), &second.with(&changes(other)));
        assert_eq!(number, 0);
        ask_all(held, r, joined.ours, &joined.theirs);
    }
}

/// Each of L and the 16 X of one run another: 21; alike at their limits: taken.
fn heads(held: &mut Held, r: &mut Random) {
    for place in 0..=16 {
        let many = r.one_in(3);
        let counts = if many { [3000, 2001] } else { [3, 4] };
        let [first, second] = pair(r, counts);
        let now = *word(&mut second.ours.clone(), place);
        let (low, high) = if place == 0 { (10, 200) } else { (0, limit(place, 0)) };
        for value in [low, high, now.max(low + 1) - 1, now.min(high - 1) + 1, now ^ 1, r.from_to(low, high)] {
            if value == now || !(low..=high).contains(&value) {
                continue;
            }
            // 21 before 22
            let (number, _) = join_exchanged(held, &first, &second.with(&[(place, value)]));
            edge(held, 21, true, number);
            // the same in both
            let (number, _) = join_exchanged(held, &first.with(&[(place, value)]), &second.with(&[(place, value)]));
            if many { edge(held, 22, true, number) } else { edge(held, 21, false, number) }
        }
    }
    // two X exchanged
    for _ in 0..20 {
        let [first, second] = pair(r, [3, 4]);
        let (i, j) = (r.place(16) + 1, r.place(16) + 1);
        let [x, y] = [second.ours.x[i - 1], second.ours.x[j - 1]];
        let (number, _) = join_exchanged(held, &first, &second.with(&[(i, y), (j, x)]));
        edge(held, 21, x != y, number);
    }
}

/// A run out of order as the first, as the second, as both: 16, and the first is given back.
fn ask_refused(held: &mut Held, first: &Both, second: &Both, bad: &Both, what: &dyn Fn() -> String) {
    held.joins.out_of_order += 1;
    assert!(!bad.theirs.in_order(), "{}", what());
    for (one, other) in [(first, bad), (bad, first), (bad, bad), (bad, second), (second, bad)] {
        let (number, back) = join(held, one, other);
        edge(held, 16, true, number);
        if back.ours != one.ours {
            held.differ(|| format!("a join with a run out of order does not give back the first: {}", what()));
        }
    }
}

/// Every word of a run beyond its limit, and every total broken: 16, whatever else fits.
fn out_of_order(held: &mut Held, r: &mut Random, step: usize) {
    for place in (r.place(step)..TOTAL_GRAMS).step_by(step) {
        let counts = r.of(&[[3, 4], [3000, 2001], [5000, 5000], [0, 1]]);
        let [first, second] = pair(r, counts);
        // now and then of other heads as well
        let first = if r.one_in(3) { first.with(&[(r.from_to(1, 16) as usize, r.below(4_900_000_000))]) } else { first };
        let most = limit(place, second.ours.count);
        let far = most + 1 + r.scaled(0, 1 << 40);
        let mut values = vec![most + 1, far, 1 << 63, u64::MAX];
        if place == 0 {
            values.extend([0, 9]);
        }
        for value in values {
            ask_refused(held, &first, &second, &second.with(&[(place, value)]), &|| format!("word {place} is {value}"));
        }
        // at the limit it is in order: grams without a rest, a rest without grams
        let beside = match place {
            GRAMS..RESTS => vec![(place + 60, 0)],
            RESTS.. => vec![(place - 60, 0)],
            _ => vec![],
        };
        let edged = second.with(&[vec![(place, most)], beside].concat());
        let fresh = Both::of(plain::Run { count: 0, km: [0; 3], sums: Default::default(), totals: Default::default(), ..edged.theirs.clone() });
        let (number, _) = join_exchanged(held, &fresh, &edged);
        edge(held, 16, false, number);
        // without records nothing but 0 is
        if place > COUNT {
            let (number, _) = join_exchanged(held, &fresh.with(&[(place, 1)]), &edged);
            edge(held, 16, true, number);
        }
    }
    for i in (r.place(step.min(15))..15).step_by(step) {
        let counts = r.of(&[[3, 4], [3000, 2001], [5000, 5000], [0, 1], [1, 0]]);
        let [first, second] = pair(r, counts);
        for way in broken_totals(&second.ours, i) {
            held.joins.broken_totals += 1;
            ask_refused(held, &first, &second, &second.with_total(i, way), &|| format!("total {i} is {way:?}"));
        }
        // broken in both, so that together they would be right
        let [one, other] = [&first, &second].map(|run| (run.ours.total_grams[i], run.ours.total_rests[i]));
        if other.0 > 0 {
            let (number, _) = join_exchanged(held, &first.with_total(i, (one.0 + 1, one.1)), &second.with_total(i, (other.0 - 1, other.1)));
            edge(held, 16, true, number);
        }
    }
    // fewer records than the sums and kilometres need
    let [first, second] = pair(r, [40, 5000]);
    let mut few = second.clone();
    while few.theirs.in_order() && few.ours.count > 0 {
        few = few.with(&[(COUNT, few.ours.count / 2)]);
    }
    assert!(!few.theirs.in_order());
    let (number, _) = join_exchanged(held, &first, &few);
    edge(held, 16, true, number);
    // counts that would fit if they wrapped
    for count in [u64::MAX, u64::MAX - 38, 1 << 63, 1 << 32] {
        let (number, _) = join_exchanged(held, &first, &second.with(&[(COUNT, count)]));
        edge(held, 16, true, number);
    }
}

/// The runs of sixteen areas one after the other, in any order: no join is refused, and the end is the same.
fn areas_joined(held: &mut Held, r: &mut Random, times: u64) {
    for i in 0..times {
        let theirs = random::any_areas_in_order(r);
        assert!(theirs.in_order());
        let ours = c::Areas { runs: std::array::from_fn(|i| c_run(&theirs.runs[i])), common: theirs.common };
        held.joins.areas += 1;
        let mut order: Vec<u64> = (0..16).collect();
        let mut ends = Vec::new();
        for _ in 0..2 {
            let mut all: Option<Both> = None;
            for &area in &order {
                let (run, theirs) = (c::area_run(&ours, area), theirs.run(area).expect("areas in order"));
                held.same(AREA_RUN, 0, run, c::RunAnswer { number: 0, run: c_run(&theirs) }, || format!("area {area}"));
                let run = Both { ours: run.run, theirs };
                all = Some(match all {
                    None => run,
                    Some(before) => {
                        let (number, joined) = join(held, &before, &run);
                        edge(held, 22, false, number);
                        joined
                    }
                });
            }
            ends.extend(all);
            shuffle(r, &mut order);
        }
        let [first, second] = [&ends[0], &ends[1]];
        let count: u64 = theirs.runs.iter().map(|run| run.count).sum();
        if first.ours != second.ours || first.ours.count != count || count > 5000 {
            held.differ(|| format!("sixteen areas joined: {:?}", first.ours));
        }
        if i % 8 == 0 {
            ask_all(held, r, first.ours, &first.theirs);
        }
        // it belongs to no area: with one of them again it has that one's records twice
        let again = Both::of(theirs.runs[r.place(16)].clone());
        let (number, _) = join_exchanged(held, first, &again);
        edge(held, 22, count + again.ours.count > 5000, number);
    }
}

/// A run joined with itself until it is full, its history with it.
fn doubled(held: &mut Held, r: &mut Random, times: u64) {
    for _ in 0..times {
        let heads = family(r);
        let mut node = list(held, &heads[0], &good_records(r, 3));
        while 2 * node.run.theirs.count <= 5000 {
            node = node.join(held, &node);
            node.ask(held);
        }
        // 22
        let after = node.join(held, &node);
        assert_eq!(after.run.theirs, node.run.theirs, "a refused join");
    }
}

/// Whose head measures, by exact sums: every head with the same L and X keeps the distance, so nothing else can tell. The pair of
/// heads of SPECIFICATION, "Joining", whose sums behind X of LPG NOX differ.
fn own_heads() {
    let year = |four: [i64; 4]| plain::Head::year(200, std::array::from_fn(|k| if k < 4 { four[k] } else { 100 }));
    let (one, other) = (year([-121, -101, -30, 72]), year([-168, -46, 15, 19]));
    let van = plain::Record { class: 4, vehicles: 1000, km: 10_000, shares: [40, 40, 20], speeds: [20, 60, 100] };
    let of = |head: &plain::Head, records: u64| {
        let mut history = plain::History::of(head);
        (0..records).for_each(|_| history.add(&van).unwrap());
        history
    };
    // LPG NOX in grams and ten millionths of a gram
    let is = |history: &plain::History, grams: u128, rest: u128| {
        let (whole, parts, common) = history.exact(2, 1);
        assert_eq!((whole + parts / common, parts % common * 10_000_000), (grams, rest * common));
    };
    is(&of(&one, 2), 6_895_026, 6_477_904);
    is(&of(&other, 2), 6_895_026, 6_444_480);
    for (first, second) in [(&one, &other), (&other, &one)] {
        let mut both = of(first, 1);
        both.join(&of(second, 1)).unwrap();
        assert!(both.has_own_heads());
        is(&both, 6_895_026, 6_461_192);
        // a further add, by the one and by the other
        for (head, rest) in [(&one, 9_700_144), (&other, 9_683_432)] {
            let mut later = both.clone();
            later.measure_by(head);
            later.add(&van).unwrap();
            is(&later, 10_342_539, rest);
        }
    }
}

pub fn joins(held: &mut Held, r: &mut Random, small: bool) {
    own_heads();
    let part = if small { 100 } else { 1 };
    trees(held, r, 12_000 / part, if small { 2 } else { 160 });
    made_up(held, r, 20_000 / part);
    for _ in 0..if small { 1 } else { 20 } {
        sums(held, r);
        heads(held, r);
    }
    for _ in 0..if small { 1 } else { 20 } {
        out_of_order(held, r, if small { 11 } else { 1 });
    }
    areas_joined(held, r, if small { 4 } else { 1000 });
    doubled(held, r, if small { 4 } else { 300 });
    // each number was met by histories where it can be, and each limit from both sides
    let Tried { of_histories, own_heads, limits: [met, passed], .. } = &held.joins;
    assert!(small || [0, 21, 22].iter().all(|&n| of_histories[n] > 0) && *own_heads > 0);
    assert!([16, 21, 22].iter().all(|&n| met[n] > 0 && passed[n] > 0));
}
