//! The lists that the archive is asked about, always the same ones.
use crate::haldurap::*;

// ---- Numbers at random

/// SplitMix64.
pub struct Random(u64);

impl Random {
    /// A sequence for each purpose and list, so that a list can be made without those before it.
    pub fn new(purpose: u64, list: u64) -> Random {
        Random(Random((purpose << 32) + list).next())
    }

    fn next(&mut self) -> u64 {
        self.0 = self.0.wrapping_add(0x9e37_79b9_7f4a_7c15);
        let mut z = self.0;
        z = (z ^ (z >> 30)).wrapping_mul(0xbf58_476d_1ce4_e5b9);
        z = (z ^ (z >> 27)).wrapping_mul(0x94d0_49bb_1331_11eb);
        z ^ (z >> 31)
    }

    /// 0 to n - 1.
    pub fn below(&mut self, n: u64) -> u64 {
        self.next() % n
    }

    /// low to high, both included.
    pub fn from_to(&mut self, low: u64, high: u64) -> u64 {
        low + self.below(high - low + 1)
    }

    /// An end as often as a number from between.
    fn end_or_between(&mut self, low: u64, high: u64) -> u64 {
        match self.below(4) {
            0 => low,
            1 => high,
            _ => self.from_to(low, high),
        }
    }

    /// 1 to high, small ones as often as large ones.
    fn scaled(&mut self, high: u64) -> u64 {
        let bits = self.below(64 - u64::from(high.leading_zeros()));
        self.from_to(1, 2 << bits).min(high)
    }

    pub fn one_in(&mut self, n: u64) -> bool {
        self.below(n) == 0
    }

    pub fn place(&mut self, length: usize) -> usize {
        self.below(length as u64) as usize
    }

    pub fn of<T: Copy>(&mut self, list: &[T]) -> T {
        list[self.place(list.len())]
    }
}

// ---- Lists

const OF_HEAD: u64 = 1;
const OF_RECORDS: u64 = 2;
pub const OF_QUESTIONS: u64 = 3;

pub struct List {
    pub head: Head,
    pub records: Vec<Record>,
}

fn day(r: &mut Random, year: u64) -> u64 {
    let month = r.from_to(1, 12);
    let last = match month {
        2 if year % 4 == 0 && (year % 100 != 0 || year % 400 == 0) => 29,
        2 => 28,
        4 | 6 | 9 | 11 => 30,
        _ => 31,
    };
    year * 10_000 + month * 100 + r.end_or_between(1, last)
}

fn good_head(r: &mut Random) -> Head {
    let ends = r.one_in(4);
    let temps = std::array::from_fn(|_| (if ends { r.end_or_between(0, 700) } else { r.from_to(0, 700) }) as i64 - 300);
    let head = Head { trip: r.end_or_between(10, 200), temps, first: 0, last: 0 };
    if r.one_in(2) {
        return head;
    }
    let year = r.end_or_between(1980, 2100);
    let (one, other) = (day(r, year), day(r, year));
    let (first, last) = match r.below(6) {
        0 => (year * 10_000 + 101, year * 10_000 + 1231),
        1 => (one, one),
        _ => (one.min(other), one.max(other)),
    };
    Head { first, last, ..head }
}

/// Makes one head in twenty one that is refused.
fn damage_head(r: &mut Random, head: &mut Head) {
    match r.below(80) {
        0 => head.trip = r.of(&[0, 9, 201, u64::MAX]),
        1 => head.temps[r.place(12)] = r.of(&[-301, 401, i64::MIN, i64::MAX]),
        2 => {
            let none = r.of(&[0, 20_270_229, 21_000_229, 20_260_431, 19_791_231, 21_010_101, 20_261_301, 20_260_500, u64::MAX]);
            (head.first, head.last) = r.of(&[(none, 20_260_515), (20_260_515, none)]);
        }
        3 => {
            let days = [(20_260_515, 20_260_514), (20_261_231, 20_270_101), (20_270_101, 20_261_231), (20_000_301, 20_000_229)];
            (head.first, head.last) = r.of(&days);
        }
        _ => {}
    }
}

/// Vehicles and km of each. Of few kilometres the sums are below a gram, or mostly rest.
fn fleet(r: &mut Random, small: bool) -> (u64, u64) {
    match r.below(6) {
        _ if small => (1, r.from_to(1, 4)),
        0 => r.of(&[(1, 1), (1, 999_999), (1_000_000, 1), (1000, 999_999)]),
        // the largest distance, 10^9
        1 | 2 => r.of(&[(1_000_000, 1000), (100_000, 10_000), (15_625, 64_000), (2000, 500_000), (1250, 800_000)]),
        _ => {
            let vehicles = r.scaled(1_000_000);
            (vehicles, r.scaled(999_999.min(1_000_000_000 / vehicles)))
        }
    }
}

pub fn good_record(r: &mut Random, small: bool) -> Record {
    let (vehicles, km) = fleet(r, small);
    let one = r.end_or_between(0, 100);
    let other = r.end_or_between(0, 100 - one);
    let mut shares = [one, other, 100 - one - other];
    shares.rotate_left(r.place(3));
    let [urban, rural, highway] = shares;
    let [slow, middle, fast] = std::array::from_fn(|_| r.end_or_between(10, 130));
    Record {
        class: r.from_to(1, 7),
        vehicles,
        km,
        shares: Shares { urban, rural, highway },
        speeds: Speeds { urban: slow, rural: middle, highway: fast },
    }
}

/// Makes a record one that is refused, by each of 3 to 8 as often.
fn damage_record(r: &mut Random, record: &mut Record) {
    let Record { class, vehicles, km, shares, speeds } = record;
    match r.below(6) {
        0 => *class = r.of(&[0, 8, 99, u64::MAX]),
        1 => *vehicles = r.of(&[0, 1_000_001, u64::MAX]),
        2 => *km = r.of(&[0, 1_000_000, u64::MAX]),
        3 => (*vehicles, *km) = r.of(&[(1001, 999_999), (100_001, 10_000), (1_000_000, 1001)]),
        4 => {
            let [urban, rural, highway] = r.of(&[[100, 1, 0], [33, 33, 33], [101, 0, 0], [0, 0, 101], [u64::MAX, 1, 100], [0, 0, 0]]);
            *shares = Shares { urban, rural, highway };
        }
        _ => {
            let speed = [&mut speeds.urban, &mut speeds.rural, &mut speeds.highway].into_iter().nth(r.place(3)).unwrap();
            *speed = r.of(&[0, 9, 131, u64::MAX]);
        }
    }
}

/// List n. Two after each other, as 2 and 3, have the same head, so that half of the joins with the list before are of one head.
pub fn list(n: u64) -> List {
    let r = &mut Random::new(OF_HEAD, n / 2);
    let mut head = good_head(r);
    // a long list, one in 200, has a head that is taken
    if n / 2 % 100 != 0 {
        damage_head(r, &mut head);
    }
    let r = &mut Random::new(OF_RECORDS, n);
    // one in so many records is refused, 0: none
    let (length, refused) = match n % 1600 {
        // a text about as long as is read
        0 | 800 => (r.from_to(1594, 1598), 0),
        // joined with itself a full run, and one record too many
        600 | 1400 => (2500, 0),
        200 | 1000 => (2501, 0),
        // more than a run takes
        400 => (r.from_to(5001, 5100), 0),
        1200 => (r.from_to(5300, 5400), 64),
        _ => (if r.one_in(20) { r.from_to(100, 300) } else { r.from_to(0, 30) }, r.of(&[0, 0, 24, 8, 3])),
    };
    let small = length < 1000 && r.one_in(8);
    let records = (0..length).map(|_| {
        let mut record = good_record(r, small);
        if refused > 0 && r.one_in(refused) {
            damage_record(r, &mut record);
        }
        record
    });
    List { head, records: records.collect() }
}

impl List {
    pub fn numbers(&self) -> Vec<u64> {
        self.records.iter().flat_map(Record::numbers).collect()
    }
}

/// The list as a sheet.
pub fn text(head: &Head, records: &[Record]) -> Vec<u8> {
    let mut text = format!("{:5}", head.trip);
    text.extend(head.temps.map(|t| format!("{t:5}")));
    if (head.first, head.last) != (0, 0) {
        text += &format!("{:9}{:9}", head.first, head.last);
    }
    text.push('\n');
    for record in records {
        let widths = [2, 7, 7, 4, 4, 4, 4, 4, 4];
        text.extend(record.numbers().iter().zip(widths).map(|(n, width)| format!("{n:width$}")));
        text.push('\n');
    }
    text.into_bytes()
}
