//! Opens a run, adds a fleet, prints the report, the same from a sheet, from a list and from two halves joined, balances it against
//! sold fuel, and asks for a part of a year.
//! Build it with examples/run.sh, or:
//!     rustc --edition 2024 -O -o target/fleet_rust examples/fleet.rs -C link-arg=target/libhaldurap.a
#[path = "../include/haldurap.rs"]
mod haldurap;
use haldurap::*;

const NAMES: [&str; 5] = ["CO", "NOX", "VOC", "PM", "FC"];

/// Tonnes sold of each fuel.
const SOLD: [u64; 3] = [1000, 4400, 210];

fn record(class: u64, vehicles: u64, km: u64, shares: [u64; 3], speeds: [u64; 3]) -> Record {
    let [urban, rural, highway] = shares;
    let shares = Shares { urban, rural, highway };
    let [urban, rural, highway] = speeds;
    Record { class, vehicles, km, shares, speeds: Speeds { urban, rural, highway } }
}

/// A value, or the number of the refusal.
fn taken<T>(number: u64, value: T) -> Result<T, String> {
    if number == TAKEN { Ok(value) } else { Err(format!("refused with {number}")) }
}

/// The head and a fleet as the text of a sheet.
fn sheet_of(head: &Head, fleet: &[Record]) -> String {
    let mut text = format!("{:5}", head.trip);
    head.temps.iter().for_each(|t| text += &format!("{t:5}"));
    text += "\n";
    for r in fleet {
        let Record { class, vehicles, km, shares, speeds } = r;
        text += &format!("{class:2}{vehicles:7}{km:7}{:4}{:4}{:4}", shares.urban, shares.rural, shares.highway);
        text += &format!("{:4}{:4}{:4}\n", speeds.urban, speeds.rural, speeds.highway);
    }
    text
}

/// A fleet as a list of numbers, nine a record.
fn list_of(fleet: &[Record]) -> Vec<u64> {
    fleet.iter().flat_map(|r| r.numbers()).collect()
}

/// CO of gasoline from cold starts, grams, of a fleet under a head.
fn cold_co(head: Head, fleet: &[Record]) -> Result<u64, String> {
    let listed = add_list(head, &list_of(fleet));
    taken(listed.number, ())?;
    let cold = haldurap_cold(listed.run, GASOLINE, CO);
    taken(cold.number, cold.grams)
}

fn main() -> Result<(), String> {
    let layout = haldurap_layout();
    if layout.version != LAYOUT || layout.size != size_of::<Run>() as u64 {
        return Err("haldurap.rs does not fit this archive".into());
    }

    let head = Head { trip: 120, temps: [100; 12], first: 0, last: 0 };
    let opened = haldurap_open(head);
    let mut run = taken(opened.number, opened.run)?;

    let fleet = [
        record(2, 1000, 10000, [40, 40, 20], [20, 60, 100]),
        record(6, 2500, 18000, [30, 45, 25], [25, 70, 110]),
        record(4, 300, 12000, [55, 30, 15], [30, 65, 95]),
    ];
    for part in fleet {
        let added = haldurap_add(run, part);
        run = taken(added.number, added.run)?;
    }
    println!("records: {}", run.count);

    let mut buffer = [0; REPORT_BYTES];
    let written = report(run, &mut buffer);
    let length = taken(written.number, written.bytes)?;
    print!("{}", str::from_utf8(&buffer[..length]).expect("a report is ASCII"));

    // The same head and fleet as the text of a sheet give the same report. Whether the sheet was taken is its own number.
    let mut again = [0; REPORT_BYTES];
    let read = report_sheet(sheet_of(&head, &fleet).as_bytes(), &mut again);
    let bytes = taken(read.number, read.bytes)?;
    let same = taken(read.sheet_number, again[..bytes] == buffer[..length])?;
    println!("from a sheet: {}", if same { "the same" } else { "another report" });

    // And as a list of numbers.
    let listed = add_list(head, &list_of(&fleet));
    let same = taken(listed.number, listed.run == run)?;
    println!("from a list: {} taken, {}", listed.taken, if same { "the same" } else { "another run" });

    // And by two crews, each with its own run under the same head: the first has one record, the second the others.
    let (one, others) = (add_list(head, &list_of(&fleet[..1])), add_list(head, &list_of(&fleet[1..])));
    let halves = (taken(one.number, one.run)?, taken(others.number, others.run)?);
    let joined = haldurap_join(halves.0, halves.1);
    let same = taken(joined.number, joined.run == run)?;
    println!("from two crews: {} and {} records, joined {}", halves.0.count, halves.1.count, if same { "the same" } else { "another run" });

    for fuel in GASOLINE..=LPG {
        let sold = SOLD[fuel as usize - 1];
        for (name, quantity) in NAMES.iter().zip(CO..) {
            let b = haldurap_balance(run, fuel, quantity, sold);
            let grams = taken(b.number, b.grams)?;
            if quantity == CO {
                println!("fuel {fuel}: {sold} t sold, k {} in {} digits", b.k, b.digits);
            }
            println!("  {name} {grams} g");
        }
    }

    // 1.8 hydrogen per carbon.
    let co2 = haldurap_co2(run, GASOLINE, 1800);
    println!("CO2 of gasoline: {} g", taken(co2.number, co2.grams)?);

    // A mountain pass that is open from 15 May to 20 October 2026: cold starts go by the temperatures of these days, and without
    // dates by those of all months.
    let temps = [-78, -75, -48, -14, 36, 72, 98, 95, 61, 22, -34, -65];
    let pass = Head { trip: 186, temps, first: 20_260_515, last: 20_261_020 };
    println!("CO from cold starts, 15 May to 20 October 2026: {} g", cold_co(pass, &fleet)?);
    println!("CO from cold starts, without dates: {} g", cold_co(Head { first: 0, last: 0, ..pass }, &fleet)?);

    // A refusal is a number. A refused add gives the run as it was, a list passes the record over, a sheet is sent back.
    let mut wrong = fleet;
    wrong[1].speeds.highway = 131;
    let refused = haldurap_add(run, wrong[1]);
    println!("131 km/h, added: refused with {}, records: {}", refused.number, refused.run.count);
    let listed = add_list(head, &list_of(&wrong));
    taken(listed.number, ())?;
    println!("131 km/h in a list: {} taken, the first refused at place {} with {}", listed.taken, listed.place, listed.refused);
    let read = report_sheet(sheet_of(&head, &wrong).as_bytes(), &mut again);
    taken(read.number, ())?;
    if read.sheet_number != TAKEN {
        println!("131 km/h in a sheet: refused with {} at line {}", read.sheet_number, read.sheet_line);
    }

    // Runs of other trip lengths or temperatures are not joined: the first comes back.
    let other = haldurap_open(pass);
    let joined = haldurap_join(run, taken(other.number, other.run)?);
    println!("joined with a run of the pass: refused with {}, records: {}", joined.number, joined.run.count);
    Ok(())
}
