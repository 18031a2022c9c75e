//! The calls of sixteen areas, which change them in place.
use super::*;

#[inline(never)]
fn plain_open_areas(head: &plain::Head) -> plain::Areas {
    plain::open_areas(head).unwrap_or_default()
}

#[inline(never)]
fn tuned_open_areas(head: &tuned::Head, areas: &mut tuned::Areas) -> u64 {
    tuned::open_areas(head, areas)
}

#[inline(never)]
fn plain_add_area(areas: &mut plain::Areas, area: u64, r: &plain::Record) -> u64 {
    areas.add(area, r).err().unwrap_or(0)
}

#[inline(never)]
fn tuned_add_area(areas: &mut tuned::Areas, area: u64, r: &tuned::Record) -> u64 {
    tuned::add_area(areas, area, r)
}

#[inline(never)]
fn plain_area_run(areas: &plain::Areas, area: u64) -> plain::Run {
    areas.run(area).unwrap_or_default()
}

#[inline(never)]
fn tuned_area_run(areas: &tuned::Areas, area: u64, run: &mut tuned::Run) -> u64 {
    tuned::area_run(areas, area, run)
}

/// The same areas of all three.
struct Areas {
    ours: c::Areas,
    a: plain::Areas,
    b: tuned::Areas,
}

impl Areas {
    /// Freshly opened ones.
    fn open(inputs: &Inputs, head: usize) -> Areas {
        let mut ours = c::Areas::zeros();
        let mut b = tuned::Areas { runs: [tuned::ZERO; 16], common: 0 };
        let numbers = [c::open_areas(&mut ours, inputs.c_heads[head]), tuned_open_areas(&inputs.tuned_heads[head], &mut b)];
        assert_eq!(numbers, [0; 2]);
        Areas { ours, a: plain_open_areas(&inputs.heads[head]), b }
    }

    fn compare(&self) {
        let same = (0..16).all(|i| same_runs(&self.ours.runs[i], &self.a.runs[i], &self.b.runs[i]));
        assert!(same && [self.ours.common, self.a.common] == [self.b.common; 2], "the three areas differ");
    }
}

/// Adds n records to fresh areas, each to the area told: ns an add, the best of each tenth; and the areas behind them.
fn adds(inputs: &Inputs, n: usize, area: impl Fn(usize) -> u64, repetitions: usize) -> ([f64; 3], Areas) {
    let mut best = [[f64::MAX; 3]; 10];
    let mut areas = Areas::open(inputs, 0);
    for _ in 0..repetitions {
        areas = Areas::open(inputs, 0);
        let Areas { ours, a, b } = &mut areas;
        for (part, best) in best.iter_mut().enumerate() {
            let at = part * n / 10;
            keep(best, [
                each(n / 10, |i| c::add_area(ours, area(at + i), inputs.c_records[at + i])),
                each(n / 10, |i| plain_add_area(a, area(at + i), &inputs.records[at + i])),
                each(n / 10, |i| tuned_add_area(b, area(at + i), &inputs.tuned_records[at + i])),
            ]);
        }
        areas.compare();
    }
    (std::array::from_fn(|i| best.iter().map(|part| part[i]).sum::<f64>() / 10.0), areas)
}

/// The run of each area in turn: ns a run.
fn runs(areas: &Areas, repetitions: usize) -> [f64; 3] {
    let Areas { ours, a, b } = areas;
    let mut run = tuned::ZERO;
    for area in 0..16 {
        let answer = c::area_run(ours, area);
        assert_eq!([answer.number, tuned_area_run(b, area, &mut run)], [0; 2]);
        assert!(same_runs(&answer.run, &plain_area_run(a, area), &run), "the three runs of an area differ");
    }
    let times = best(repetitions, [
        &mut || (0..16).for_each(|area| { let _ = black_box(c::area_run(black_box(ours), black_box(area))); }),
        &mut || (0..16).for_each(|area| { black_box(plain_area_run(black_box(a), black_box(area))); }),
        &mut || (0..16).for_each(|area| { black_box(tuned_area_run(black_box(b), black_box(area), black_box(&mut run))); }),
    ]);
    times.map(|t| t / 16.0)
}

/// The best times: opening, adds to all areas in turn and to one, the run of an area behind each.
pub struct Best {
    open: [f64; 3],
    adds: [f64; 3],
    adds_to_one: [f64; 3],
    run: [f64; 3],
    run_of_one: [f64; 3],
}

impl Best {
    pub fn new() -> Best {
        let none = [f64::MAX; 3];
        Best { open: none, adds: none, adds_to_one: none, run: none, run_of_one: none }
    }

    pub fn rows(&self) -> [Row; 5] {
        let rows = [
            ("opening sixteen areas", self.open),
            ("add to an area, all in use", self.adds),
            ("add to an area, fifteen empty", self.adds_to_one),
            ("run of an area, all in use", self.run),
            ("run of an area, fifteen empty", self.run_of_one),
        ];
        rows.map(|(name, times)| Row { name: name.into(), times, most: 2.0 })
    }

    /// Measures everything once more.
    pub fn pass(&mut self, inputs: &Inputs, repetitions: usize) {
        // in turn to sixteen areas: 312 or 313 each, with which all is used; then one alone with all that it may have
        let (times, in_use) = adds(inputs, 5000, |i| i as u64 % 16, repetitions);
        keep(&mut self.adds, times);
        keep(&mut self.run, runs(&in_use, repetitions));
        let (times, one) = adds(inputs, 500, |_| 7, repetitions);
        keep(&mut self.adds_to_one, times);
        keep(&mut self.run_of_one, runs(&one, repetitions));

        let Areas { mut ours, mut b, .. } = in_use;
        for (i, head) in inputs.c_heads.iter().enumerate() {
            assert_eq!([c::open_areas(&mut ours, *head), tuned_open_areas(&inputs.tuned_heads[i], &mut b)], [0; 2]);
            let opened = Areas { ours: ours.clone(), a: plain_open_areas(&inputs.heads[i]), b: b.clone() };
            opened.compare();
        }
        let times = best(repetitions, [
            &mut || inputs.c_heads.iter().for_each(|h| { black_box(c::open_areas(black_box(&mut ours), *black_box(h))); }),
            &mut || inputs.heads.iter().for_each(|h| { black_box(plain_open_areas(black_box(h))); }),
            &mut || inputs.tuned_heads.iter().for_each(|h| { black_box(tuned_open_areas(black_box(h), black_box(&mut b))); }),
        ]);
        keep(&mut self.open, times.map(|t| t / 64.0));
    }
}
