//! The declarations of haldurap.h for Rust, and safe functions where a pointer passes. Units, refusals and what each
//! call leaves behind are described there. Take it in with `#[path = ".../include/haldurap.rs"] mod haldurap;` and
//! link target/libhaldurap.a. Platform: x86-64, Linux. An answer that is dropped is warned about.
#![allow(dead_code)]

#[cfg(not(all(target_arch = "x86_64", target_os = "linux", target_pointer_width = "64")))]
compile_error!("haldurap.rs: the archive is for x86-64 Linux with 64-bit pointers");

/// The layout that this file describes; `haldurap_layout` tells that of the archive.
pub const LAYOUT: u64 = 7;

/// Records in a run, a joined one too.
pub const MOST_RECORDS: u64 = 5000;
/// Bytes of text that `report_sheet` reads.
pub const MOST_TEXT: usize = 65536;
/// One line of a report, LF included.
pub const LINE_BYTES: usize = 97;
/// Room enough for every report.
pub const REPORT_BYTES: usize = 1455;
/// The line REFUSED, LF included.
pub const REFUSED_BYTES: usize = 17;
/// The first line of a sheet without dates, LF included.
pub const HEAD_BYTES: usize = 66;
/// The first line of a sheet with dates, LF included.
pub const DATED_HEAD_BYTES: usize = 84;
/// Every other line of a sheet, LF included.
pub const RECORD_BYTES: usize = 41;
/// Numbers of a record in a list.
pub const RECORD_NUMBERS: usize = 9;
/// Areas under one head.
pub const AREAS: u64 = 16;
/// Records that each area has for itself.
pub const AREA_RECORDS: u64 = 300;
/// Records more, for whichever areas come first.
pub const COMMON_RECORDS: u64 = 200;
/// 64-bit numbers of an `Areas`.
pub const AREAS_NUMBERS: usize = 2737;

// The numbers of refusals.

/// No ground fits.
pub const TAKEN: u64 = 0;
/// L out of range (10 to 200).
pub const TRIP_LENGTH: u64 = 1;
/// A T out of range (-300 to 400).
pub const TEMPERATURE: u64 = 2;
/// Class not 1 to 7.
pub const CLASS: u64 = 3;
/// Vehicles out of range (1 to 1,000,000).
pub const VEHICLES: u64 = 4;
/// Km per vehicle out of range (1 to 999,999).
pub const KILOMETRES: u64 = 5;
/// Vehicles × km over 1,000,000,000.
pub const DISTANCE: u64 = 6;
/// A share over 100, or their sum not 100.
pub const SHARES: u64 = 7;
/// A speed out of range (10 to 130), also where its share is 0.
pub const SPEED: u64 = 8;
/// The run has 5,000 records.
pub const FULL: u64 = 9;
/// A line of a sheet has a wrong shape, or a list is not of whole records.
pub const LINE_SHAPE: u64 = 10;
/// Fuel not 1 to 3, or quantity not 1 to 5.
pub const FUEL_OR_QUANTITY: u64 = 11;
/// The fuel used is 0 in a balance.
pub const NO_FUEL_USED: u64 = 12;
/// Sold fuel over 999,999,999 t, or k not 500,000 to 1,500,000.
pub const SOLD_FUEL: u64 = 13;
/// The buffer is shorter than what is to be written.
pub const SHORT_BUFFER: u64 = 14;
/// R over 4,000, s over 10,000 or l over 1,000.
pub const FUEL_CONTENT: u64 = 15;
/// The run or the areas are not in order.
pub const RUN_ORDER: u64 = 16;
/// Area above 15.
pub const NO_AREA: u64 = 17;
/// The area has 300 records or more and the common 200 are used.
pub const FULL_AREA: u64 = 18;
/// No such day, or not from 1980 to 2100.
pub const NO_DAY: u64 = 19;
/// The last day before the first, or in another year.
pub const DAY_ORDER: u64 = 20;
/// L or an X of the two runs differs.
pub const HEADS_DIFFER: u64 = 21;
/// More than 5,000 records together.
pub const FULL_TOGETHER: u64 = 22;

// Fuels.

pub const GASOLINE: u64 = 1;
pub const DIESEL: u64 = 2;
pub const LPG: u64 = 3;

// Quantities; FC is the fuel used, the others are what leaves the exhaust.

pub const CO: u64 = 1;
pub const NOX: u64 = 2;
pub const VOC: u64 = 3;
pub const PM: u64 = 4;
pub const FC: u64 = 5;

/// The first and the last day of the period are written as 20260515 for 15 May 2026; both 0 for a head without dates, and anything
/// else is dated.
#[repr(C)]
#[derive(Clone, Copy, Debug, PartialEq)]
pub struct Head { pub trip: u64, pub temps: [i64; 12], pub first: u64, pub last: u64 }

#[repr(C)]
#[derive(Clone, Copy, Debug, PartialEq)]
pub struct Shares { pub urban: u64, pub rural: u64, pub highway: u64 }

#[repr(C)]
#[derive(Clone, Copy, Debug, PartialEq)]
pub struct Speeds { pub urban: u64, pub rural: u64, pub highway: u64 }

#[repr(C)]
#[derive(Clone, Copy, Debug, PartialEq)]
pub struct Record { pub class: u64, pub vehicles: u64, pub km: u64, pub shares: Shares, pub speeds: Speeds }

impl Record {
    /// The nine numbers of a record, as a list has them.
    pub fn numbers(&self) -> [u64; RECORD_NUMBERS] {
        let Record { class, vehicles, km, shares, speeds } = *self;
        [class, vehicles, km, shares.urban, shares.rural, shares.highway, speeds.urban, speeds.rural, speeds.highway]
    }
}

/// The last of `x` is that of CO of class 3. `total_grams` and `total_rests` are the exact totals by fuel and quantity: each must
/// be the sum of its four kinds, else the run is refused with 16. Whoever writes `grams` or `rests` by hand writes their total too.
#[repr(C)]
#[derive(Clone, Copy, Debug, PartialEq)]
pub struct Run {
    pub trip: u64, pub x: [u64; 16], pub count: u64, pub km: [u64; 3], pub grams: [u64; 60], pub rests: [u64; 60],
    pub total_grams: [u64; 15], pub total_rests: [u64; 15],
}

/// Sixteen areas under one head: the run of each, and how many records they have beyond 300 in all. Calls change it in
/// place, so it is not `Copy`: a copy made unseen would be changed instead.
#[repr(C)]
#[derive(Clone, Debug, PartialEq)]
pub struct Areas { pub runs: [Run; 16], pub common: u64 }

impl Areas {
    /// Memory to open areas in. Not opened, they are not in order.
    pub const fn zeros() -> Areas {
        let zeros =
            Run { trip: 0, x: [0; 16], count: 0, km: [0; 3], grams: [0; 60], rests: [0; 60], total_grams: [0; 15], total_rests: [0; 15] };
        Areas { runs: [zeros; 16], common: 0 }
    }
}

#[repr(C)]
#[must_use]
#[derive(Clone, Copy, Debug, PartialEq)]
pub struct RunAnswer { pub number: u64, pub run: Run }

#[repr(C)]
#[must_use]
#[derive(Clone, Copy, Debug, PartialEq)]
pub struct GramsAnswer { pub number: u64, pub grams: u64 }

/// `digits` are the digits worked in finding `k`, 6 to 12 where taken; with fewer than 12, `k` is exact.
#[repr(C)]
#[must_use]
#[derive(Clone, Copy, Debug, PartialEq)]
pub struct BalanceAnswer { pub number: u64, pub k: u64, pub digits: u64, pub grams: u64 }

#[repr(C)]
#[must_use]
#[derive(Clone, Copy, Debug, PartialEq)]
pub struct LengthAnswer { pub number: u64, pub bytes: usize }

/// The sheet's own number (0: it was taken) and line stand beside the text's length, also with 14.
#[repr(C)]
#[must_use]
#[derive(Clone, Copy, Debug, PartialEq)]
pub struct TextAnswer { pub number: u64, pub bytes: usize, pub sheet_number: u64, pub sheet_line: usize }

/// How many records were taken; the place (from 1) and the number of the first refused one, 0 and 0 for none.
#[repr(C)]
#[must_use]
#[derive(Clone, Copy, Debug, PartialEq)]
pub struct ListAnswer { pub number: u64, pub taken: u64, pub place: usize, pub refused: u64, pub run: Run }

#[repr(C)]
#[must_use]
#[derive(Clone, Copy, Debug, PartialEq)]
pub struct MapRowAnswer { pub number: u64, pub urban: f64, pub rural: f64, pub highway: f64, pub cold: f64 }

#[repr(C)]
#[must_use]
#[derive(Clone, Copy, Debug, PartialEq)]
pub struct FigureAnswer { pub number: u64, pub given: u64, pub grams: f64 }

#[repr(C)]
#[must_use]
#[derive(Clone, Copy, Debug, PartialEq)]
pub struct SheetAnswer { pub number: u64, pub line: usize, pub run: Run }

#[repr(C)]
#[must_use]
#[derive(Clone, Copy, Debug, PartialEq)]
pub struct LayoutAnswer { pub version: u64, pub size: u64 }

unsafe extern "C" {
    pub safe fn haldurap_layout() -> LayoutAnswer;
    pub safe fn haldurap_open(head: Head) -> RunAnswer;
    pub safe fn haldurap_add(run: Run, record: Record) -> RunAnswer;
    pub safe fn haldurap_join(first: Run, second: Run) -> RunAnswer;
    pub fn haldurap_add_list(head: Head, numbers: *const u64, length: usize) -> ListAnswer;
    #[must_use]
    pub safe fn haldurap_in_order(run: Run) -> u64;
    #[must_use]
    pub fn haldurap_open_areas(areas: *mut u64, length: usize, head: Head) -> u64;
    #[must_use]
    pub fn haldurap_add_area(areas: *mut u64, length: usize, area: u64, record: Record) -> u64;
    pub fn haldurap_area_run(areas: *const u64, length: usize, area: u64) -> RunAnswer;
    pub safe fn haldurap_total(run: Run, fuel: u64, quantity: u64) -> GramsAnswer;
    pub safe fn haldurap_urban(run: Run, fuel: u64, quantity: u64) -> GramsAnswer;
    pub safe fn haldurap_rural(run: Run, fuel: u64, quantity: u64) -> GramsAnswer;
    pub safe fn haldurap_highway(run: Run, fuel: u64, quantity: u64) -> GramsAnswer;
    pub safe fn haldurap_cold(run: Run, fuel: u64, quantity: u64) -> GramsAnswer;
    pub safe fn haldurap_balance(run: Run, fuel: u64, quantity: u64, sold: u64) -> BalanceAnswer;
    pub safe fn haldurap_co2(run: Run, fuel: u64, hydrogen: u64) -> GramsAnswer;
    pub safe fn haldurap_so2(run: Run, fuel: u64, sulphur: u64) -> GramsAnswer;
    pub safe fn haldurap_lead(run: Run, fuel: u64, lead: u64) -> GramsAnswer;
    pub safe fn haldurap_map_row(run: Run, fuel: u64, quantity: u64) -> MapRowAnswer;
    pub safe fn haldurap_figure_urban(run: Run, fuel: u64, quantity: u64) -> FigureAnswer;
    pub safe fn haldurap_figure_rural(run: Run, fuel: u64, quantity: u64) -> FigureAnswer;
    pub safe fn haldurap_figure_highway(run: Run, fuel: u64, quantity: u64) -> FigureAnswer;
    pub safe fn haldurap_figure_cold(run: Run, fuel: u64, quantity: u64) -> FigureAnswer;
    pub fn haldurap_report(run: Run, buffer: *mut u8, length: usize) -> LengthAnswer;
    pub fn haldurap_sheet(text: *const u8, length: usize) -> SheetAnswer;
    pub fn haldurap_report_sheet(text: *const u8, text_length: usize, buffer: *mut u8, buffer_length: usize) -> TextAnswer;
}

// A slice or an `Areas` is aligned, not null and of its length, and a `&mut` one overlaps nothing: that is all these calls want.
const _: () = assert!(size_of::<Areas>() == AREAS_NUMBERS * size_of::<u64>());

/// Nine numbers a record; `Record::numbers` gives them.
pub fn add_list(head: Head, numbers: &[u64]) -> ListAnswer {
    unsafe { haldurap_add_list(head, numbers.as_ptr(), numbers.len()) }
}

#[must_use]
pub fn in_order(run: Run) -> bool {
    haldurap_in_order(run) == 1
}

/// Gives the number; refused by the head, the areas are zeros.
#[must_use]
pub fn open_areas(areas: &mut Areas, head: Head) -> u64 {
    unsafe { haldurap_open_areas((&raw mut *areas).cast(), AREAS_NUMBERS, head) }
}

/// Gives the number; refused, the areas are as they were.
#[must_use]
pub fn add_area(areas: &mut Areas, area: u64, record: Record) -> u64 {
    unsafe { haldurap_add_area((&raw mut *areas).cast(), AREAS_NUMBERS, area, record) }
}

pub fn area_run(areas: &Areas, area: u64) -> RunAnswer {
    unsafe { haldurap_area_run((&raw const *areas).cast(), AREAS_NUMBERS, area) }
}

pub fn report(run: Run, buffer: &mut [u8]) -> LengthAnswer {
    unsafe { haldurap_report(run, buffer.as_mut_ptr(), buffer.len()) }
}

pub fn sheet(text: &[u8]) -> SheetAnswer {
    unsafe { haldurap_sheet(text.as_ptr(), text.len()) }
}

pub fn report_sheet(text: &[u8], buffer: &mut [u8]) -> TextAnswer {
    unsafe { haldurap_report_sheet(text.as_ptr(), text.len(), buffer.as_mut_ptr(), buffer.len()) }
}
