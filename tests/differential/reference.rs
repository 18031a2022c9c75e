//! The inventory in plain Rust: ordinary structs, u128 and i128 wherever a product might be large. Written from the
//! customer's request ("COPERT II inventory core", its document 01, and jobs 1 and 3 to 7 of document 02, of which
//! docs/SPECIFICATION.md says the same in our own words); lists of records and the number and line beside a text are from that
//! page itself. Nothing here comes from the Rattle code. A refusal is its number in the table of refusals. Fuels, quantities
//! and kinds count from 0 inside arrays and from 1 where a caller hands them in; areas count from 0.
#![allow(dead_code)]

pub const URBAN: usize = 0;
pub const RURAL: usize = 1;
pub const HIGHWAY: usize = 2;
pub const COLD: usize = 3;

const GASOLINE: usize = 0;
const CO: usize = 0;
const PM: usize = 3;
const FC: usize = 4;
const NAMES: [&str; 5] = ["CO", "NOX", "VOC", "PM", "FC"];

const BILLION: u128 = 1_000_000_000;
const MOST_RECORDS: u64 = 5000;
const MOST_TEXT: usize = 65_536;

#[derive(Clone, Copy, Debug, PartialEq)]
pub struct Head {
    pub trip: u64,
    pub temps: [i64; 12],
    /// The first and the last day as they are written, where the head is dated.
    pub days: Option<[u64; 2]>,
}

impl Head {
    /// A head without dates.
    pub fn year(trip: u64, temps: [i64; 12]) -> Head {
        Head { trip, temps, days: None }
    }
}

#[derive(Clone, Copy, Debug, PartialEq)]
pub struct Record {
    pub class: u64,
    pub vehicles: u64,
    pub km: u64,
    pub shares: [u64; 3],
    pub speeds: [u64; 3],
}

/// Whole grams and a rest in billionths of a gram.
#[derive(Clone, Copy, Debug, Default, PartialEq)]
pub struct Sum {
    pub grams: u64,
    pub rest: u64,
}

impl Sum {
    /// The sum in billionths of a gram.
    fn exact(self) -> u128 {
        self.grams as u128 * BILLION + self.rest as u128
    }

    fn of(billionths: u128) -> Sum {
        Sum { grams: (billionths / BILLION) as u64, rest: (billionths % BILLION) as u64 }
    }
}

#[derive(Clone, Debug, Default, PartialEq)]
pub struct Run {
    pub trip: u64,
    /// X by fuel and quantity.
    pub x: [[u64; 5]; 3],
    /// X of CO of class 3.
    pub x_class_3: u64,
    pub count: u64,
    pub km: [u64; 3],
    /// By fuel, quantity and kind.
    pub sums: [[[Sum; 4]; 5]; 3],
    /// By fuel and quantity: the four kinds together, kept beside them.
    pub totals: [[Sum; 5]; 3],
}

fn half_up(numerator: u128, denominator: u128) -> u128 {
    (2 * numerator + denominator) / (2 * denominator)
}

/// The least n from 0 to 12 with S × 10^n a multiple of F, or 12 if there is none.
fn digits_worked(sold: u128, used: u128) -> u64 {
    for n in 0..=12 {
        if sold * 10u128.pow(n) % used == 0 {
            return n as u64;
        }
    }
    12
}

// ---- Hot factors

type Curve = [i128; 3];
const NONE: Curve = [0, 0, 0];

/// CO, NOX, VOC, PM, FC of classes 1, 2, 4, 6 and 7: the coefficients of V², V and 1.
const CLASS_1: [Curve; 5] =
    [[110400, -15132000, 577890000], [900, -79000, 19391000], [6770, -1170000, 54734000], NONE, [187000, -26974000, 1567700000]];
const CLASS_2: [Curve; 5] =
    [[6000, -475000, 22195000], [575, -54800, 4880000], [700, -67000, 2406000], NONE, [187000, -26974000, 1567700000]];
const CLASS_4: [Curve; 5] =
    [[11000, -1165000, 42098000], [400, -63000, 5278000], [1000, -166000, 7431000], NONE, [72000, -9250000, 746250000]];
/// FC of classes 6 and 7 is Table V.1.6-1 of source document 002: 0.02330V² - 2.5646V + 136.22 and
/// 0.01530V² - 2.1810V + 152.74, times 10,000,000.
const CLASS_6: [Curve; 5] = [
    [2000, -256000, 18281000], [1400, -159200, 14921000], [660, -113000, 6024000], [125, -5770, 2880000], [233000, -25646000, 1362200000],
];
const CLASS_7: [Curve; 5] = [
    [2000, -313000, 17838000], [1270, -167400, 9037000], [281, -65000, 4505000], [400, -55000, 2687000], [153000, -21810000, 1527400000],
];
/// Class 3 is class 2 in hundredths.
const CLASS_3: [i128; 5] = [70, 44, 44, 100, 100];
/// Class 5 by quantity and road, at any speed.
const CLASS_5: [[u128; 3]; 5] = [
    [207000000, 75000000, 87000000],
    [3000000, 10000000, 7500000],
    [154000000, 72000000, 59000000],
    [0, 0, 0],
    [1115000000, 660000000, 569000000],
];

fn curve_at(curve: Curve, speed: u64) -> i128 {
    let v = speed as i128;
    curve[0] * v * v + curve[1] * v + curve[2]
}

/// E in units of 0.0000001 g/km.
pub fn hot_factor(class: u64, quantity: usize, road: usize, speed: u64) -> u128 {
    let e = match class {
        1 => curve_at(CLASS_1[quantity], speed),
        2 => curve_at(CLASS_2[quantity], speed),
        3 => curve_at(CLASS_2[quantity], speed) * CLASS_3[quantity] / 100,
        4 => curve_at(CLASS_4[quantity], speed),
        5 => return CLASS_5[quantity][road],
        6 => curve_at(CLASS_6[quantity], speed),
        _ => curve_at(CLASS_7[quantity], speed),
    };
    e as u128
}

/// The fuel of a class, from 0.
pub fn fuel_of(class: u64) -> usize {
    match class {
        6 | 7 => 1,
        4 => 2,
        _ => 0,
    }
}

// ---- Cold starts

/// p and q of the ratio cold to hot, by fuel and quantity.
const RATIOS: [[Option<(i128, i128)>; 5]; 3] = [
    [Some((37000, 90)), Some((11400, 6)), Some((28000, 60)), None, Some((14700, 9))],
    [Some((19000, 30)), Some((13000, 13)), Some((31000, 90)), Some((31000, 100)), Some((13400, 8))],
    [Some((36600, 90)), Some((9800, 6)), Some((22400, 60)), None, Some((14700, 9))],
];

/// B, the cold share of the distance.
pub fn cold_share(trip: u64, t: i64) -> i128 {
    let (l, t) = (trip as i128, t as i128);
    64_700_000 - 250_000 * l - (97_400 - 385 * l) * t
}

/// Q, the ratio less 10,000, or 0.
fn cold_excess(fuel: usize, quantity: usize, t: i64) -> i128 {
    match RATIOS[fuel][quantity] {
        Some((p, q)) => (p - q * t as i128 - 10_000).max(0),
        None => 0,
    }
}

/// B × Q by the weights of the twelve months.
fn cold_sum(head: &Head, weights: &[u64; 12], fuel: usize, quantity: usize) -> u128 {
    let mut sum = 0;
    for (&t, &weight) in head.temps.iter().zip(weights) {
        sum += weight as i128 * cold_share(head.trip, t) * cold_excess(fuel, quantity, t);
    }
    sum as u128
}

// ---- Part years

/// How many days a month has by the Gregorian calendar.
fn days_in_month(year: u64, month: u64) -> u64 {
    let leap = year % 400 == 0 || (year % 4 == 0 && year % 100 != 0);
    match month {
        2 => 28 + leap as u64,
        4 | 6 | 9 | 11 => 30,
        _ => 31,
    }
}

/// Whether a number is a day of the years 1980 to 2100: year × 10,000 + month × 100 + day.
pub fn is_day(written: u64) -> bool {
    let (year, month, day) = (written / 10_000, written / 100 % 100, written % 100);
    (1980..=2100).contains(&year) && (1..=12).contains(&month) && (1..=days_in_month(year, month)).contains(&day)
}

/// The weight of each month: 1 without dates, else how many days it has in common with the period. In a month, days as they are
/// written are numbers one after the other.
pub fn month_weights(days: Option<[u64; 2]>) -> [u64; 12] {
    let Some([first, last]) = days else { return [1; 12] };
    let year = first / 10_000;
    std::array::from_fn(|i| {
        let month = i as u64 + 1;
        let nought = year * 10_000 + month * 100;
        let from = first.max(nought + 1);
        let to = last.min(nought + days_in_month(year, month));
        if from > to { 0 } else { to - from + 1 }
    })
}

// ---- The run

/// Opens a run, or refuses with 1, 2, 19 or 20.
pub fn open(head: &Head) -> Result<Run, u64> {
    if !(10..=200).contains(&head.trip) {
        return Err(1);
    }
    if head.temps.iter().any(|t| !(-300..=400).contains(t)) {
        return Err(2);
    }
    if let Some([first, last]) = head.days {
        if !is_day(first) || !is_day(last) {
            return Err(19);
        }
        if last < first || last / 10_000 != first / 10_000 {
            return Err(20);
        }
    }
    let weights = month_weights(head.days);
    let whole = weights.iter().sum::<u64>() as u128;
    let mut run = Run { trip: head.trip, ..Run::default() };
    for fuel in 0..3 {
        for quantity in 0..5 {
            let sum = cold_sum(head, &weights, fuel, quantity);
            run.x[fuel][quantity] = half_up(sum, 1000 * whole) as u64;
            if (fuel, quantity) == (GASOLINE, CO) {
                run.x_class_3 = half_up(sum * 72, 100_000 * whole) as u64;
            }
        }
    }
    Ok(run)
}

/// 3 to 8 of a record by itself.
fn record_fault(r: &Record) -> Option<u64> {
    if !(1..=7).contains(&r.class) {
        return Some(3);
    }
    if !(1..=1_000_000).contains(&r.vehicles) {
        return Some(4);
    }
    if !(1..=999_999).contains(&r.km) {
        return Some(5);
    }
    if r.vehicles as u128 * r.km as u128 > BILLION {
        return Some(6);
    }
    if r.shares.iter().any(|&s| s > 100) || r.shares.iter().sum::<u64>() != 100 {
        return Some(7);
    }
    if r.speeds.iter().any(|v| !(10..=130).contains(v)) {
        return Some(8);
    }
    None
}

/// A list of records as it was added.
#[derive(Clone, Debug, PartialEq)]
pub struct Listed {
    pub run: Run,
    pub taken: u64,
    /// The place from 1 and the number of the first refused record.
    pub refused: Option<(usize, u64)>,
}

/// Opens a run and adds records one after the other, nine numbers each; a refused record is passed over. Refuses with 10
/// where the numbers are not of whole records, then by the head.
pub fn add_list(head: &Head, numbers: &[u64]) -> Result<Listed, u64> {
    let records = numbers.chunks_exact(9);
    if !records.remainder().is_empty() {
        return Err(10);
    }
    let mut listed = Listed { run: open(head)?, taken: 0, refused: None };
    for (i, n) in records.enumerate() {
        let record = Record { class: n[0], vehicles: n[1], km: n[2], shares: [n[3], n[4], n[5]], speeds: [n[6], n[7], n[8]] };
        match listed.run.add(&record) {
            Ok(()) => listed.taken += 1,
            Err(number) => listed.refused = listed.refused.or(Some((i + 1, number))),
        }
    }
    Ok(listed)
}

impl Run {
    pub fn in_order(&self) -> bool {
        if !(10..=200).contains(&self.trip) || self.count > MOST_RECORDS {
            return false;
        }
        let most = 1_000_000_000_000 * BILLION * self.count as u128;
        self.x.iter().flatten().chain([&self.x_class_3]).all(|&x| x <= 4_900_000_000)
            && self.sums.iter().flatten().flatten().all(|s| (s.rest as u128) < BILLION && s.exact() <= most)
            && self.km.iter().all(|&km| km as u128 <= BILLION * self.count as u128)
            && self.totals.iter().flatten().all(|total| (total.rest as u128) < BILLION)
            && (0..3).all(|f| (0..5).all(|q| self.totals[f][q].exact() == self.exact_total(f, q)))
    }

    /// The four kinds together in billionths of a gram.
    fn exact_total(&self, f: usize, q: usize) -> u128 {
        self.sums[f][q].iter().map(|s| s.exact()).sum()
    }

    /// Each total made that of its four kinds, which were changed.
    pub fn settle(&mut self) {
        for f in 0..3 {
            for q in 0..5 {
                self.totals[f][q] = Sum::of(self.exact_total(f, q));
            }
        }
    }

    /// Whether two runs agree in L and every X, which is all that a run keeps of its head.
    pub fn same_head(&self, other: &Run) -> bool {
        self.trip == other.trip && self.x == other.x && self.x_class_3 == other.x_class_3
    }

    /// X of a class: CO of class 3 has its own, everything else that of the fuel.
    fn x_of(&self, class: u64, quantity: usize) -> u64 {
        match (class, quantity) {
            (3, CO) => self.x_class_3,
            _ => self.x[fuel_of(class)][quantity],
        }
    }

    /// Adds a record, or refuses with 16, then 3 to 9, and changes nothing.
    pub fn add(&mut self, r: &Record) -> Result<(), u64> {
        if !self.in_order() {
            return Err(16);
        }
        if let Some(number) = record_fault(r) {
            return Err(number);
        }
        if self.count >= MOST_RECORDS {
            return Err(9);
        }
        self.take(r);
        Ok(())
    }

    /// Adds a record that no number fits.
    fn take(&mut self, r: &Record) {
        let k = r.vehicles as u128 * r.km as u128;
        let fuel = fuel_of(r.class);
        for quantity in 0..5 {
            let x = self.x_of(r.class, quantity) as u128;
            let sums = &mut self.sums[fuel][quantity];
            for road in 0..3 {
                let e = hot_factor(r.class, quantity, road, r.speeds[road]);
                sums[road] = Sum::of(sums[road].exact() + k * r.shares[road] as u128 * e);
            }
            if r.class != 5 {
                let e = hot_factor(r.class, quantity, URBAN, r.speeds[URBAN]);
                let factor = half_up(e * x, BILLION);
                sums[COLD] = Sum::of(sums[COLD].exact() + k * factor * 100);
            }
            self.totals[fuel][quantity] = Sum::of(self.exact_total(fuel, quantity));
        }
        self.km[fuel] += k as u64;
        self.count += 1;
    }

    /// 16, then 11; else the places of a fuel and a quantity.
    fn place(&self, fuel: u64, quantity: u64) -> Result<(usize, usize), u64> {
        if !self.in_order() {
            return Err(16);
        }
        if !(1..=3).contains(&fuel) || !(1..=5).contains(&quantity) {
            return Err(11);
        }
        Ok((fuel as usize - 1, quantity as usize - 1))
    }

    fn printed_kind(&self, f: usize, q: usize, kind: usize) -> u64 {
        half_up(self.sums[f][q][kind].exact(), BILLION) as u64
    }

    fn printed_total(&self, f: usize, q: usize) -> u64 {
        half_up(self.exact_total(f, q), BILLION) as u64
    }

    pub fn kind(&self, fuel: u64, quantity: u64, kind: usize) -> Result<u64, u64> {
        let (f, q) = self.place(fuel, quantity)?;
        Ok(self.printed_kind(f, q, kind))
    }

    pub fn total(&self, fuel: u64, quantity: u64) -> Result<u64, u64> {
        let (f, q) = self.place(fuel, quantity)?;
        Ok(self.printed_total(f, q))
    }

    /// k, the digits worked and the balanced total; sold is S in tonnes.
    pub fn balance(&self, fuel: u64, quantity: u64, sold: u64) -> Result<(u64, u64, u64), u64> {
        let (f, q) = self.place(fuel, quantity)?;
        let used = self.printed_total(f, FC) as u128;
        if used == 0 {
            return Err(12);
        }
        if sold > 999_999_999 {
            return Err(13);
        }
        let k = half_up(sold as u128 * 1_000_000_000_000, used);
        if !(500_000..=1_500_000).contains(&k) {
            return Err(13);
        }
        let balanced = half_up(self.printed_total(f, q) as u128 * k, 1_000_000);
        Ok((k as u64, digits_worked(sold as u128, used), balanced as u64))
    }

    /// The printed FC total for one of the three calls from fuel: 16, 11, then 15.
    fn fuel_used(&self, fuel: u64, content: u64, most: u64) -> Result<u128, u64> {
        let (f, _) = self.place(fuel, 5)?;
        if content > most {
            return Err(15);
        }
        Ok(self.printed_total(f, FC) as u128)
    }

    pub fn co2(&self, fuel: u64, hydrogen: u64) -> Result<u64, u64> {
        let used = self.fuel_used(fuel, hydrogen, 4000)?;
        Ok(half_up(44_011_000 * used, 12_011_000 + 1_008 * hydrogen as u128) as u64)
    }

    pub fn so2(&self, fuel: u64, sulphur: u64) -> Result<u64, u64> {
        let used = self.fuel_used(fuel, sulphur, 10_000)?;
        Ok(half_up(2 * used * sulphur as u128, 1_000_000) as u64)
    }

    pub fn lead(&self, fuel: u64, lead: u64) -> Result<u64, u64> {
        let used = self.fuel_used(fuel, lead, 1000)?;
        Ok(half_up(3 * used * lead as u128, 4_000_000) as u64)
    }

    /// The map's row: the printed kinds.
    pub fn map_row(&self, fuel: u64, quantity: u64) -> Result<[f64; 4], u64> {
        let (f, q) = self.place(fuel, quantity)?;
        Ok([0, 1, 2, 3].map(|kind| self.printed_kind(f, q, kind) as f64))
    }

    /// One figure for the map, none for PM of fuels 1 and 3.
    pub fn figure(&self, fuel: u64, quantity: u64, kind: usize) -> Result<Option<f64>, u64> {
        let row = self.map_row(fuel, quantity)?;
        let not_given = quantity as usize == PM + 1 && fuel != 2;
        Ok(if not_given { None } else { Some(row[kind]) })
    }

    /// The report's text, or 16.
    pub fn report(&self) -> Result<String, u64> {
        if !self.in_order() {
            return Err(16);
        }
        let mut text = String::new();
        for f in 0..3 {
            for q in 0..5 {
                let total = self.printed_total(f, q);
                if total != 0 {
                    let [urban, rural, highway, cold] = [0, 1, 2, 3].map(|kind| self.printed_kind(f, q, kind));
                    text += &format!("{:2}{:>4}{urban:18}{rural:18}{highway:18}{cold:18}{total:18}\n", f + 1, NAMES[q]);
                }
            }
        }
        Ok(text)
    }

    /// Writes the report to the front of a buffer: its length, or 16, 14 and the buffer as it was.
    pub fn write_report(&self, buffer: &mut [u8]) -> Result<usize, u64> {
        let text = self.report()?;
        write_text(&text, buffer)
    }
}

fn write_text(text: &str, buffer: &mut [u8]) -> Result<usize, u64> {
    let front = buffer.get_mut(..text.len()).ok_or(14u64)?;
    front.copy_from_slice(text.as_bytes());
    Ok(text.len())
}

// ---- Joining

/// Joins two runs into one, or refuses with 16, 21, then 22.
pub fn join(first: &Run, second: &Run) -> Result<Run, u64> {
    if !first.in_order() || !second.in_order() {
        return Err(16);
    }
    if !first.same_head(second) {
        return Err(21);
    }
    if first.count + second.count > MOST_RECORDS {
        return Err(22);
    }
    let mut run = first.clone();
    run.count += second.count;
    for fuel in 0..3 {
        run.km[fuel] += second.km[fuel];
        for quantity in 0..5 {
            for kind in 0..4 {
                let sum = &mut run.sums[fuel][quantity][kind];
                *sum = Sum::of(sum.exact() + second.sums[fuel][quantity][kind].exact());
            }
        }
    }
    run.settle();
    Ok(run)
}

// ---- Sixteen areas

/// Records that each area has for itself, and records for whoever comes first.
const OWN_RECORDS: u64 = 300;
const COMMON_RECORDS: u64 = 200;

#[derive(Clone, Debug, Default, PartialEq)]
pub struct Areas {
    pub runs: [Run; 16],
    /// How many of the common records are used.
    pub common: u64,
}

/// Opens all areas under one head, or refuses by it.
pub fn open_areas(head: &Head) -> Result<Areas, u64> {
    let run = open(head)?;
    Ok(Areas { runs: std::array::from_fn(|_| run.clone()), common: 0 })
}

impl Areas {
    /// Every run in order, all of one head, and the common use that of the records beyond 300, at most 200.
    pub fn in_order(&self) -> bool {
        let mut beyond = 0u128;
        for run in &self.runs {
            if !run.in_order() || !run.same_head(&self.runs[0]) {
                return false;
            }
            if run.count > OWN_RECORDS {
                beyond += (run.count - OWN_RECORDS) as u128;
            }
        }
        self.common as u128 == beyond && self.common <= COMMON_RECORDS
    }

    /// Adds a record to an area, or refuses with 16, 17, 3 to 8, then 18, and changes nothing.
    pub fn add(&mut self, area: u64, r: &Record) -> Result<(), u64> {
        self.place(area)?;
        if let Some(number) = record_fault(r) {
            return Err(number);
        }
        let run = &mut self.runs[area as usize];
        if run.count < OWN_RECORDS {
            run.take(r);
        } else if self.common < COMMON_RECORDS {
            run.take(r);
            self.common += 1;
        } else {
            return Err(18);
        }
        Ok(())
    }

    /// The run of an area, or 16, 17.
    pub fn run(&self, area: u64) -> Result<Run, u64> {
        self.place(area)?;
        Ok(self.runs[area as usize].clone())
    }

    fn place(&self, area: u64) -> Result<(), u64> {
        if !self.in_order() {
            return Err(16);
        }
        if area > 15 { Err(17) } else { Ok(()) }
    }
}

// ---- Exact sums

/// What a list of accepted records comes to, never rounded: hot grams in billionths, cold grams in parts of which `part` are a gram.
#[derive(Clone)]
pub struct Tally {
    part: u128,
    /// B × Q by the weights, by fuel and quantity.
    sums: [[u128; 5]; 3],
    km: [u64; 3],
    hot: [[u128; 5]; 3],
    cold: [[u128; 5]; 3],
}

impl Tally {
    /// The tally of a head that is taken, without a record.
    pub fn of(head: &Head) -> Tally {
        let weights = month_weights(head.days);
        let sums = std::array::from_fn(|fuel| std::array::from_fn(|quantity| cold_sum(head, &weights, fuel, quantity)));
        // cold grams are K × E × sum / (10^16 × 1000 × all weights), for CO of class 3 18/25 of that
        let part = 10_000_000_000_000_000 * 1000 * 25 * weights.iter().sum::<u64>() as u128;
        Tally { part, sums, km: [0; 3], hot: [[0; 5]; 3], cold: [[0; 5]; 3] }
    }

    /// One accepted record more.
    pub fn feed(&mut self, r: &Record) {
        let k = r.vehicles as u128 * r.km as u128;
        let fuel = fuel_of(r.class);
        self.km[fuel] += k as u64;
        for quantity in 0..5 {
            for road in 0..3 {
                self.hot[fuel][quantity] += k * r.shares[road] as u128 * hot_factor(r.class, quantity, road, r.speeds[road]);
            }
            if r.class != 5 {
                let e = hot_factor(r.class, quantity, URBAN, r.speeds[URBAN]);
                self.cold[fuel][quantity] += k * e * self.sums[fuel][quantity] * if (r.class, quantity) == (3, CO) { 18 } else { 25 };
            }
        }
    }

    /// The records of another list under the same head.
    fn put(&mut self, other: &Tally) {
        for fuel in 0..3 {
            self.km[fuel] += other.km[fuel];
            for quantity in 0..5 {
                self.hot[fuel][quantity] += other.hot[fuel][quantity];
                self.cold[fuel][quantity] += other.cold[fuel][quantity];
            }
        }
    }

    /// The exact sum in parts of a gram.
    fn exact(&self, fuel: usize, quantity: usize) -> u128 {
        self.hot[fuel][quantity] * (self.part / BILLION) + self.cold[fuel][quantity]
    }

    /// Whether a printed total lies within half a gram and 1.5 g for ten million kilometres of the exact sum.
    pub fn is_near(&self, fuel: usize, quantity: usize, printed: u64) -> bool {
        let exact = self.exact(fuel, quantity);
        let allowed = self.part / 2 + 3 * self.km[fuel] as u128 * (self.part / 20_000_000);
        (printed as u128 * self.part).abs_diff(exact) <= allowed
    }
}

/// What a history comes to, never rounded: a list of adds under a head, two histories joined, or further adds to a history's run. Each
/// record is measured by the head that it was added under, so that parts of a gram are of several kinds.
#[derive(Clone)]
pub struct History {
    /// The fresh run of the first head: its L and X decide whether two histories may be joined.
    fresh: Run,
    pub count: u64,
    pub km: [u64; 3],
    /// By head; the next add is measured by the last.
    tallies: Vec<(Head, Tally)>,
}

impl History {
    /// The history of a head that is taken, without a record.
    pub fn of(head: &Head) -> History {
        let fresh = open(head).expect("a head that is taken");
        History { fresh, count: 0, km: [0; 3], tallies: vec![(*head, Tally::of(head))] }
    }

    /// Further adds are measured by this head, whose L and X are those of the first.
    pub fn measure_by(&mut self, head: &Head) {
        assert!(open(head).is_ok_and(|run| run.same_head(&self.fresh)), "a head with other L or X: {head:?}");
        let at = self.tallies.iter().position(|(other, _)| other == head).unwrap_or(self.tallies.len());
        if at == self.tallies.len() {
            self.tallies.push((*head, Tally::of(head)));
        }
        let last = self.tallies.len() - 1;
        self.tallies.swap(at, last);
    }

    /// An add: 3 to 9, or it is accepted.
    pub fn add(&mut self, r: &Record) -> Result<(), u64> {
        if let Some(number) = record_fault(r) {
            return Err(number);
        }
        if self.count >= MOST_RECORDS {
            return Err(9);
        }
        self.count += 1;
        self.km[fuel_of(r.class)] += r.vehicles * r.km;
        self.tallies.last_mut().expect("a head").1.feed(r);
        Ok(())
    }

    /// Another history joined to this one, or 21, 22 and nothing changed: told from heads and counts, never from a run.
    pub fn join(&mut self, other: &History) -> Result<(), u64> {
        if !self.fresh.same_head(&other.fresh) {
            return Err(21);
        }
        if self.count + other.count > MOST_RECORDS {
            return Err(22);
        }
        self.count += other.count;
        for fuel in 0..3 {
            self.km[fuel] += other.km[fuel];
        }
        for (head, tally) in &other.tallies {
            match self.tallies.iter_mut().find(|(own, _)| own == head) {
                Some((_, own)) => own.put(tally),
                // the last one measures the next add, and that is still the first history's
                None => self.tallies.insert(0, (*head, tally.clone())),
            }
        }
        Ok(())
    }

    /// Whether two heads with other sums behind an X have brought cold grams that go by it.
    pub fn has_own_heads(&self) -> bool {
        (0..15).any(|i| {
            let mut cold = self.tallies.iter().map(|(_, tally)| tally).filter(|tally| tally.cold.as_flattened()[i] > 0);
            // sums over the weights of all months, compared with the weights multiplied out
            cold.next().is_some_and(|one| cold.any(|other| one.sums.as_flattened()[i] * other.part != other.sums.as_flattened()[i] * one.part))
        })
    }

    /// The exact sum: whole grams, and parts of one over a common multiple of all that the heads have, which comes last.
    pub fn exact(&self, fuel: usize, quantity: usize) -> (u128, u128, u128) {
        let common = self.tallies.iter().fold(1, |common, (_, tally)| common / gcd(common, tally.part) * tally.part);
        let (mut grams, mut parts) = (0, 0);
        for (_, tally) in &self.tallies {
            let exact = tally.exact(fuel, quantity);
            grams += exact / tally.part;
            parts += exact % tally.part * (common / tally.part);
        }
        (grams, parts, common)
    }

    /// Whether a printed total lies within half a gram and 1.5 g for ten million kilometres of the exact sum.
    pub fn is_near(&self, fuel: usize, quantity: usize, printed: u64) -> bool {
        let (grams, parts, common) = self.exact(fuel, quantity);
        let apart = (printed as u128).abs_diff(grams);
        // further than any total may lie, so that nothing below has more than 128 bits
        if apart > 1_000_000 {
            return false;
        }
        let allowed = common / 2 + 3 * self.km[fuel] as u128 * (common / 20_000_000);
        let distance = if printed as u128 >= grams { (apart * common).abs_diff(parts) } else { apart * common + parts };
        distance <= allowed
    }
}

fn gcd(a: u128, b: u128) -> u128 {
    if b == 0 { a } else { gcd(b, a % b) }
}

// ---- Sheets

/// A number that is right-justified with spaces, without leading zeros; a minus only before a number that is not 0.
fn number_in(field: &[u8]) -> Option<i64> {
    let text = std::str::from_utf8(field).ok()?;
    let digits = text.trim_start_matches(' ');
    let (minus, digits) = match digits.strip_prefix('-') {
        Some(rest) => (true, rest),
        None => (false, digits),
    };
    if digits.is_empty() || !digits.bytes().all(|b| b.is_ascii_digit()) {
        return None;
    }
    if digits.starts_with('0') && (minus || digits.len() > 1) {
        return None;
    }
    let n: i64 = digits.parse().ok()?;
    Some(if minus { -n } else { n })
}

/// The numbers of a line (without its LF) by their widths.
fn numbers_in(line: &[u8], widths: &[usize]) -> Option<Vec<i64>> {
    if line.len() != widths.iter().sum::<usize>() {
        return None;
    }
    let mut at = 0;
    let mut numbers = Vec::new();
    for width in widths {
        numbers.push(number_in(&line[at..at + width])?);
        at += width;
    }
    Some(numbers)
}

/// L and T, and in a longer line two days.
fn head_in(line: &[u8]) -> Option<Head> {
    let dated = line.len() > 65;
    let widths = [[5; 13].as_slice(), if dated { &[9, 9] } else { &[] }].concat();
    let numbers = numbers_in(line, &widths)?;
    let without_sign = |i: usize| u64::try_from(numbers[i]).ok();
    let days = if dated { Some([without_sign(13)?, without_sign(14)?]) } else { None };
    Some(Head { trip: without_sign(0)?, temps: numbers[1..13].try_into().ok()?, days })
}

fn record_in(line: &[u8]) -> Option<Record> {
    let mut n = Vec::new();
    for number in numbers_in(line, &[2, 7, 7, 4, 4, 4, 4, 4, 4])? {
        n.push(u64::try_from(number).ok()?);
    }
    Some(Record { class: n[0], vehicles: n[1], km: n[2], shares: [n[3], n[4], n[5]], speeds: [n[6], n[7], n[8]] })
}

/// A refused sheet: the number and its line, from 1.
#[derive(Clone, Copy, Debug, PartialEq)]
pub struct SentBack {
    pub number: u64,
    pub line: usize,
}

/// The run of a sheet of any length.
pub fn sheet(text: &[u8]) -> Result<Run, SentBack> {
    let mut run = None;
    for (i, line) in text.split_inclusive(|&b| b == b'\n').enumerate() {
        let back = |number| SentBack { number, line: i + 1 };
        let line = line.strip_suffix(b"\n").ok_or(back(10))?;
        match &mut run {
            None => run = Some(open(&head_in(line).ok_or(back(10))?).map_err(back)?),
            Some(run) => run.add(&record_in(line).ok_or(back(10))?).map_err(back)?,
        }
    }
    run.ok_or(SentBack { number: 10, line: 1 })
}

/// The run of a sheet of at most 65,536 bytes; a longer one is a shape fault at line 1.
fn short_sheet(text: &[u8]) -> Result<Run, SentBack> {
    if text.len() > MOST_TEXT { Err(SentBack { number: 10, line: 1 }) } else { sheet(text) }
}

/// What the program `report` prints for a sheet.
pub fn sheet_report(text: &[u8]) -> String {
    match short_sheet(text) {
        Ok(run) => run.report().expect("a sheet gives a run in order"),
        Err(back) => format!("REFUSED{:3}{:6}\n", back.number, back.line),
    }
}

/// The sheet's own number and line, 0 and 0 where it is taken, beside that text.
pub fn sheet_verdict(text: &[u8]) -> (u64, usize) {
    short_sheet(text).err().map_or((0, 0), |back| (back.number, back.line))
}

/// The same into a buffer: its length, or 14 and the buffer as it was.
pub fn write_sheet_report(text: &[u8], buffer: &mut [u8]) -> Result<usize, u64> {
    write_text(&sheet_report(text), buffer)
}
