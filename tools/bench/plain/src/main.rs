//! The standard rules in plain Rust, written by hand for comparison: no driver programs, no verifier,
//! no proofs.
//!
//! `plain` reads a job with a standard rule, and writes the same output as `trlab run`.
//! `plain sweep` reads a sweep with a standard rule, and writes the same output as `trlab sweep`.
//! `plain floor` reads a job, and only computes one random word per car and step, in parallel for the cars of a group.
//! No run in which each car draws can take less time.

use std::hint::black_box;
use std::io::{self, Write};

use common::{job_from_input, run, sweep_from_input, word_of_cars};
use common::{Dice, Driver, Job, Rule, View, Words, GROUP};

struct Plain(Rule);

impl Driver for Plain {
    fn changes_lanes(&self) -> bool {
        matches!(self.0, Rule::Rickert { .. })
    }

    #[inline(always)]
    fn speed(&self, view: &View, words: &mut Words, car: usize) -> u32 {
        let brake = match self.0 {
            Rule::Vdr { start, .. } if view.speed == 0 => start,
            Rule::Nasch { brake } | Rule::Vdr { brake, .. } | Rule::Rickert { brake, .. } => brake,
        };
        let speed = (view.speed + 1).min(view.limit).min(view.gap);
        speed.saturating_sub(u32::from(words.happens(car, 0, brake)))
    }

    #[inline(always)]
    fn crosses(&self, view: &View, words: &mut Words, car: usize) -> bool {
        let Rule::Rickert { change, .. } = self.0 else {
            return false;
        };
        view.side
            && view.gap < view.speed + 1
            && view.sidegap > view.speed + 1
            && view.sideback > view.limit
            && words.happens(car, 1, change)
    }
}

/// Computes a word of each car in each step, and discards it.
fn make_words(job: &Job) {
    let lanes = job.road.lanes();
    let cars: Vec<u32> = lanes.iter().flatten().map(|car| car.number).collect();
    for step in 0..job.steps {
        for group in cars.chunks(GROUP) {
            let numbers = std::array::from_fn(|k| group.get(k).copied().unwrap_or(0));
            let dice = Dice {
                key: &job.key,
                road: 0,
                step,
            };
            black_box(word_of_cars(dice, numbers, 0));
        }
    }
}

/// Writes the table of a sweep.
fn write_table() -> io::Result<()> {
    let sweep = sweep_from_input()?;
    let table = sweep.table(&Plain(sweep.rule));
    io::stdout().write_all(table.map_err(io::Error::other)?.as_bytes())
}

fn main() -> io::Result<()> {
    let wanted = std::env::args().nth(1);
    if wanted.as_deref() == Some("sweep") {
        return write_table();
    }
    let job = job_from_input()?;
    if wanted.as_deref() == Some("floor") {
        make_words(&job);
        return Ok(());
    }
    let driver = job.rule.map(Plain).ok_or(io::ErrorKind::InvalidData)?;
    run(job, &driver)
}
