//! Holds the archive's answers to 10,000 lists of records against those that an earlier archive gave. answers.txt names the commit
//! of that archive and has a line for each list: its records, the bytes of its answers and their hash. What is right is not known
//! here (tests/differential knows), only what was answered. A run is read by the names of its fields, and made by calls alone, so
//! that this file can be compiled for a later layout too.
//!
//!     answers                   compares; exits 1 if an answer differs
//!     answers --write COMMIT    writes answers.txt, of an archive built from that commit
//!     answers --list N          prints the answers to list N, 1 to 10,000
#[path = "../../include/haldurap.rs"]
mod haldurap;
mod lists;

use haldurap::*;
use lists::{List, OF_QUESTIONS, Random, good_record, list, text};
use std::fmt::Arguments;
use std::process::exit;

const LISTS: u64 = 10_000;
const PATH: &str = "tests/answers/answers.txt";
/// Raised with every change of what is asked; answers.txt is then written anew, by an archive of the commit that it names.
const QUESTIONS: u64 = 1;
/// None, and the numbers of refusals.
const NUMBERS: usize = 23;

// ---- Answers

/// FNV-1a 64, of a hash before it.
fn hash(before: u64, bytes: &[u8]) -> u64 {
    bytes.iter().fold(before, |hash, byte| (hash ^ u64::from(*byte)).wrapping_mul(0x100_0000_01b3))
}
const NO_BYTES: u64 = 0xcbf2_9ce4_8422_2325;

/// What stands in a buffer before a call; no text has it.
const UNTOUCHED: u8 = b'#';
/// Bytes behind the room that is lent.
const BEHIND: usize = 8;

/// All answers to a list.
struct Answers {
    bytes: Vec<u8>,
    /// How often each number was answered.
    tried: [u64; NUMBERS],
    /// What is asked now, for the reader.
    part: String,
    shown: bool,
}

impl Answers {
    fn values(&mut self, name: Arguments, values: &[u64]) {
        for value in values {
            self.bytes.extend_from_slice(&value.to_le_bytes());
        }
        if self.shown {
            let values: Vec<String> = values.iter().map(u64::to_string).collect();
            println!("{}: {name}: {}", self.part, values.join(" "));
        }
    }

    /// An answer whose first value is its number.
    fn answer(&mut self, name: Arguments, values: &[u64]) {
        if let Some(tried) = self.tried.get_mut(values[0] as usize) {
            *tried += 1;
        }
        self.values(name, values);
    }

    fn grams(&mut self, name: Arguments, answer: GramsAnswer) {
        self.answer(name, &[answer.number, answer.grams]);
    }

    /// Every byte of a buffer.
    fn buffer(&mut self, buffer: &[u8]) {
        self.values(format_args!("buffer"), &[buffer.len() as u64]);
        self.bytes.extend_from_slice(buffer);
        if self.shown {
            let written = buffer.iter().rposition(|byte| *byte != UNTOUCHED).map_or(0, |last| last + 1);
            for line in buffer[..written].split_inclusive(|byte| *byte == b'\n') {
                println!("    {}", line.escape_ascii());
            }
            println!("    and {} bytes untouched", buffer.len() - written);
        }
    }

    fn run(&mut self, run: &Run) {
        self.values(format_args!("run.trip"), &[run.trip]);
        self.values(format_args!("run.x"), &run.x);
        self.values(format_args!("run.count"), &[run.count]);
        self.values(format_args!("run.km"), &run.km);
        self.values(format_args!("run.grams"), &run.grams);
        self.values(format_args!("run.rests"), &run.rests);
    }
}

// ---- Questions to a run

type Question<T> = extern "C" fn(Run, u64, u64) -> T;
const KINDS: [(&str, Question<GramsAnswer>, Question<FigureAnswer>); 4] = [
    ("urban", haldurap_urban, haldurap_figure_urban),
    ("rural", haldurap_rural, haldurap_figure_rural),
    ("highway", haldurap_highway, haldurap_figure_highway),
    ("cold", haldurap_cold, haldurap_figure_cold),
];
/// With the largest R, s and l.
const FROM_FUEL: [(&str, Question<GramsAnswer>, u64); 3] =
    [("co2", haldurap_co2, 4000), ("so2", haldurap_so2, 10_000), ("lead", haldurap_lead, 1000)];

/// Fuels and quantities.
fn places() -> impl Iterator<Item = (u64, u64)> {
    (1..=3).flat_map(|fuel| (1..=5).map(move |quantity| (fuel, quantity)))
}
const NO_PLACES: [(u64, u64); 6] = [(0, 1), (4, 5), (1, 0), (3, 6), (u64::MAX, 1), (2, u64::MAX)];

/// With room enough, with just enough and with a byte less. Behind the room nothing may be written either.
fn ask_report(a: &mut Answers, run: Run) {
    let mut ask = |room: usize| {
        let mut buffer = [UNTOUCHED; REPORT_BYTES + BEHIND];
        let LengthAnswer { number, bytes } = report(run, &mut buffer[..room]);
        a.answer(format_args!("report in {room} bytes"), &[number, bytes as u64]);
        a.buffer(&buffer[..room + BEHIND]);
        bytes
    };
    let bytes = ask(REPORT_BYTES);
    ask(bytes);
    if bytes > 0 {
        ask(bytes - 1);
    }
}

fn ask_totals(a: &mut Answers, run: Run, places: impl IntoIterator<Item = (u64, u64)>) {
    for (fuel, quantity) in places {
        a.grams(format_args!("total {fuel} {quantity}"), haldurap_total(run, fuel, quantity));
    }
}

/// What is asked of every run that a call gives, since a later run can have fields that are not known here.
fn ask_some(a: &mut Answers, run: Run) {
    a.run(&run);
    a.values(format_args!("in_order"), &[haldurap_in_order(run)]);
    ask_report(a, run);
    ask_totals(a, run, places());
}

/// Everything that can be asked of a run.
fn ask_all(a: &mut Answers, r: &mut Random, run: Run) {
    ask_some(a, run);
    ask_totals(a, run, NO_PLACES);
    for (fuel, quantity) in places().chain(NO_PLACES) {
        for (name, kind, figure) in KINDS {
            a.grams(format_args!("{name} {fuel} {quantity}"), kind(run, fuel, quantity));
            let FigureAnswer { number, given, grams } = figure(run, fuel, quantity);
            a.answer(format_args!("figure_{name} {fuel} {quantity}, {grams:?} in bits"), &[number, given, grams.to_bits()]);
        }
        let MapRowAnswer { number, urban, rural, highway, cold } = haldurap_map_row(run, fuel, quantity);
        let row = [urban, rural, highway, cold];
        let [b, c, d, e] = row.map(f64::to_bits);
        a.answer(format_args!("map_row {fuel} {quantity}, {row:?} in bits"), &[number, b, c, d, e]);
        // the tonnes used, the ends where k is 0.5 and 1.5 and one beyond each, some between; the ends of what may be sold
        let used = haldurap_total(run, fuel, FC).grams;
        let (low, high) = (used.div_ceil(2_000_000), used.saturating_mul(3) / 2_000_000);
        let between: [u64; 5] = std::array::from_fn(|_| r.from_to(low, low.max(high)));
        let ends = [used / 1_000_000, low, high, low.saturating_sub(1), high + 1, 0, 999_999_999, 1_000_000_000, u64::MAX];
        for sold in between.into_iter().chain(ends) {
            let BalanceAnswer { number, k, digits, grams } = haldurap_balance(run, fuel, quantity, sold);
            a.answer(format_args!("balance {fuel} {quantity}, sold {sold}"), &[number, k, digits, grams]);
        }
    }
    for fuel in [1, 2, 3, 0, 4, u64::MAX] {
        for (name, ask, most) in FROM_FUEL {
            for content in [0, 1, most, r.from_to(0, most), r.from_to(0, most), most + 1, u64::MAX] {
                a.grams(format_args!("{name} {fuel}, content {content}"), ask(run, fuel, content));
            }
        }
    }
}

/// Runs that no layout takes: every call answers 16.
fn ask_out_of_order(a: &mut Answers, r: &mut Random, run: Run, record: Record) {
    let mut damaged = [run; 3];
    damaged[0].rests[r.place(60)] = 1_000_000_000;
    damaged[1].count = MOST_RECORDS + 1;
    damaged[2].trip = 9;
    for (what, damaged) in ["a rest of 10^9", "count 5001", "trip 9"].into_iter().zip(damaged) {
        a.part = format!("out of order, {what}");
        ask_all(a, r, damaged);
        let answer = haldurap_add(damaged, record);
        a.answer(format_args!("add"), &[answer.number]);
        ask_some(a, answer.run);
        for (name, first, second) in [("to the run", run, damaged), ("the run to it", damaged, run)] {
            let answer = haldurap_join(first, second);
            a.answer(format_args!("join {name}"), &[answer.number]);
            ask_some(a, answer.run);
        }
    }
}

// ---- Questions to a list

/// Adds records one after the other, and asks for one total between: the run, and which were taken.
fn ask_adds(a: &mut Answers, mut run: Run, records: &[Record]) -> (Run, Vec<Record>) {
    let mut taken = Vec::new();
    for (i, (record, (fuel, quantity))) in records.iter().zip(places().collect::<Vec<_>>().into_iter().cycle()).enumerate() {
        let answer = haldurap_add(run, *record);
        run = answer.run;
        let total = haldurap_total(run, fuel, quantity);
        a.answer(format_args!("add {}, then total {fuel} {quantity}", i + 1), &[answer.number, total.number, total.grams]);
        if answer.number == 0 {
            taken.push(*record);
        }
    }
    (run, taken)
}

fn ask_list(a: &mut Answers, head: Head, numbers: &[u64]) {
    let ListAnswer { number, taken, place, refused, run } = add_list(head, numbers);
    a.answer(format_args!("add_list"), &[number, taken, place as u64, refused]);
    ask_some(a, run);
}

fn ask_sheet(a: &mut Answers, text: &[u8]) {
    let SheetAnswer { number, line, run } = sheet(text);
    a.answer(format_args!("sheet"), &[number, line as u64]);
    ask_some(a, run);
    let mut ask = |room: usize| {
        let mut buffer = [UNTOUCHED; REPORT_BYTES + BEHIND];
        let TextAnswer { number, bytes, sheet_number, sheet_line } = report_sheet(text, &mut buffer[..room]);
        a.answer(format_args!("report_sheet in {room} bytes"), &[number, bytes as u64, sheet_number, sheet_line as u64]);
        a.buffer(&buffer[..room + BEHIND]);
        bytes
    };
    let bytes = ask(REPORT_BYTES);
    ask(bytes.saturating_sub(1));
}

/// Joins two runs, and asks and adds to what is given back.
fn ask_join(a: &mut Answers, part: &str, first: Run, second: Run, records: &[Record]) {
    a.part = format!("join, {part}");
    let answer = haldurap_join(first, second);
    a.answer(format_args!("join"), &[answer.number]);
    ask_some(a, answer.run);
    let (run, _) = ask_adds(a, answer.run, &records[..records.len().min(3)]);
    a.part += ", after adds";
    ask_some(a, run);
}

/// The list spread over areas, over all sixteen or over the first ones only, so that they are full sooner.
fn ask_areas(a: &mut Answers, r: &mut Random, list: &List) {
    a.part = "areas".into();
    let mut areas = Areas::zeros();
    a.answer(format_args!("area_run before they are opened"), &[area_run(&areas, 0).number]);
    a.answer(format_args!("open_areas"), &[open_areas(&mut areas, list.head)]);
    let most = r.of(&[1, 3, AREAS, AREAS]);
    for (i, record) in list.records.iter().enumerate() {
        let area = if r.one_in(100) { r.of(&[AREAS, u64::MAX]) } else { r.below(most) };
        a.answer(format_args!("add_area {area}, record {}", i + 1), &[add_area(&mut areas, area, *record)]);
    }
    a.values(format_args!("areas.common"), &[areas.common]);
    let mut all = area_run(&areas, 0).run;
    for area in 0..=AREAS {
        a.part = format!("area {area}");
        let answer = area_run(&areas, area);
        a.answer(format_args!("area_run"), &[answer.number]);
        ask_some(a, answer.run);
        if area > 0 {
            let joined = haldurap_join(all, answer.run);
            a.answer(format_args!("join to the areas before"), &[joined.number]);
            all = joined.run;
        }
    }
    a.part = "all areas".into();
    ask_all(a, r, all);
    a.part = "areas out of order, a rest of 10^9".into();
    areas.runs[r.place(16)].rests[r.place(60)] = 1_000_000_000;
    a.answer(format_args!("area_run"), &[area_run(&areas, 0).number]);
    a.answer(format_args!("add_area"), &[add_area(&mut areas, 0, good_record(r, false))]);
    a.values(format_args!("areas.common"), &[areas.common]);
}

/// All answers to list n.
fn answers(n: u64, list: &List, shown: bool) -> Answers {
    let mut answers = Answers { bytes: Vec::new(), tried: [0; NUMBERS], part: "adds".into(), shown };
    let (a, r) = (&mut answers, &mut Random::new(OF_QUESTIONS, n));
    let List { head, ref records } = *list;
    let opened = haldurap_open(head);
    a.answer(format_args!("open"), &[opened.number]);
    ask_some(a, opened.run);
    let (run, taken) = ask_adds(a, opened.run, records);
    ask_all(a, r, run);

    a.part = "the list".into();
    let numbers = list.numbers();
    ask_list(a, head, &numbers);
    a.part = "the list, cut".into();
    ask_list(a, head, &numbers[..r.place(numbers.len() + 1)]);

    a.part = "the sheet".into();
    let whole = text(&head, records);
    ask_sheet(a, &whole);
    a.part = "the sheet, cut".into();
    ask_sheet(a, &whole[..r.place(whole.len() + 1)]);
    if taken.len() < records.len() {
        a.part = "the sheet of what was taken".into();
        ask_sheet(a, &text(&head, &taken));
    }

    let before = self::list(if n == 1 { LISTS } else { n - 1 });
    let before = add_list(before.head, &before.numbers()).run;
    let mut turned = head;
    turned.temps.reverse();
    ask_join(a, "with the list before", run, before, records);
    ask_join(a, "to the list before", before, run, records);
    ask_join(a, "with itself", run, run, records);
    ask_join(a, "with a fresh run", run, opened.run, records);
    // of heads without dates the same X, though the months are others
    ask_join(a, "with the months turned", run, haldurap_open(turned).run, records);

    if n % 10 == 0 {
        ask_areas(a, r, list);
    }
    if n % 25 == 0 {
        let record = good_record(r, false);
        ask_out_of_order(a, r, run, record);
    }
    answers
}

// ---- The file

/// The line of a list in answers.txt.
fn line(list: &List, answers: &Answers) -> String {
    format!("{} {} {:016x}", list.records.len(), answers.bytes.len(), hash(NO_BYTES, &answers.bytes))
}

/// Tells the lists and what is asked of them from others.
fn generator() -> String {
    let mut marked = hash(NO_BYTES, &QUESTIONS.to_le_bytes());
    for n in 1..=LISTS {
        let list = list(n);
        let Head { trip, temps, first, last } = list.head;
        let head = [trip, first, last].into_iter().chain(temps.map(|t| t as u64));
        for number in head.chain(list.numbers()) {
            marked = hash(marked, &number.to_le_bytes());
        }
    }
    format!("{marked:016x}")
}

fn fail(what: &str) -> ! {
    println!("{what}");
    exit(1)
}

fn add_up(tried: &mut [u64; NUMBERS], answers: &Answers) {
    tried.iter_mut().zip(answers.tried).for_each(|(sum, more)| *sum += more);
}

fn by_number(tried: &[u64; NUMBERS]) -> String {
    let tried: Vec<String> = tried.iter().enumerate().map(|(number, times)| format!("{number}: {times}")).collect();
    format!("answers by number: {}", tried.join(", "))
}

fn write(commit: &str) {
    if commit.len() != 40 || !commit.bytes().all(|byte| matches!(byte, b'0'..=b'9' | b'a'..=b'f')) {
        fail("--write wants the commit in full");
    }
    let mut file = format!(
        "commit {commit}, layout {}, generator {}: the answers of its archive to {LISTS} lists, of each \
        its records, the bytes of the answers and their FNV-1a 64\n",
        haldurap_layout().version,
        generator()
    );
    let mut tried = [0; NUMBERS];
    for n in 1..=LISTS {
        let list = list(n);
        let answers = answers(n, &list, false);
        file += &(line(&list, &answers) + "\n");
        add_up(&mut tried, &answers);
    }
    println!("{}", by_number(&tried));
    if tried.contains(&0) {
        fail("a number is never answered: nothing is written");
    }
    std::fs::write(PATH, file).unwrap_or_else(|error| fail(&format!("{PATH}: {error}")));
    println!("{PATH} is written");
}

/// The commit and the generator that the first line of answers.txt names.
fn first_line(line: &str) -> Option<(&str, &str)> {
    let (commit, rest) = line.strip_prefix("commit ")?.split_once(", layout ")?;
    let (_, rest) = rest.split_once(", generator ")?;
    Some((commit, rest.split_once(": ")?.0))
}

fn compare() {
    let file = std::fs::read_to_string(PATH).unwrap_or_else(|error| fail(&format!("{PATH}: {error}")));
    let lines: Vec<&str> = file.lines().collect();
    let Some((commit, mark)) = lines.first().and_then(|line| first_line(line)) else {
        fail(&format!("{PATH}: the first line does not name a commit, a layout and a generator"))
    };
    if mark != generator() {
        fail(&format!("{PATH} is of another generator: the lists or what is asked of them have changed since it was written"));
    }
    if lines.len() as u64 != LISTS + 1 {
        fail(&format!("{PATH} has {} lines, and not {}", lines.len(), LISTS + 1));
    }
    let mut tried = [0; NUMBERS];
    let mut differing = 0;
    for n in 1..=LISTS {
        let list = list(n);
        let answers = answers(n, &list, false);
        let (ours, theirs) = (line(&list, &answers), lines[n as usize]);
        add_up(&mut tried, &answers);
        if ours != theirs {
            differing += 1;
            if differing <= 10 {
                println!("DIFFERENCE in list {n}: {:?}, {} records\n  now    {ours}\n  before {theirs}", list.head, list.records.len());
            }
        }
    }
    println!("{}", by_number(&tried));
    if differing > 0 {
        println!("{LISTS} lists: in {differing} the answers are not those of commit {commit}");
        println!("To see which: copy tests/answers into a clone of that commit, run `tests/answers/run.sh --list N` there and here");
        fail("(each builds its own archive), and compare what they print by diff.");
    }
    println!("{LISTS} lists: the answers are those of commit {commit}");
}

fn show(n: u64) {
    let list = list(n);
    println!("list {n}: {:?}", list.head);
    for (i, record) in list.records.iter().enumerate() {
        println!("record {}: {:?}", i + 1, record.numbers());
    }
    let answers = answers(n, &list, true);
    println!("{}\n{}", by_number(&answers.tried), line(&list, &answers));
}

fn main() {
    let layout = haldurap_layout();
    if (layout.version, layout.size) != (LAYOUT, size_of::<Run>() as u64) {
        fail("include/haldurap.rs and the archive are of two layouts");
    }
    let arguments: Vec<String> = std::env::args().skip(1).collect();
    match arguments.iter().map(String::as_str).collect::<Vec<_>>()[..] {
        [] => compare(),
        ["--write", commit] => write(commit),
        ["--list", n] => match n.parse() {
            Ok(n @ 1..=LISTS) => show(n),
            _ => fail(&format!("--list wants 1 to {LISTS}")),
        },
        _ => fail("usage: answers [--write COMMIT | --list N]"),
    }
}
