//! Driver programs in plain Rust, for comparison: the byte code of the standard rules or of others,
//! interpreted for one car at a time, with no verifier and no proofs.
//!
//! Reads a job with a standard rule, or with `code` lines of programs that the verifier accepts, and
//! writes the same output as `trlab run`.

mod machine;
mod program;

use std::io;

use common::{job_from_input, run, Driver, Job, View, Words};

use machine::Answer;
use program::{Instr, Row};

struct Programs {
    motion: Vec<Instr>,
    change: Option<Vec<Instr>>,
}

impl Programs {
    fn of(job: &Job) -> Option<Self> {
        let (motion, change) = match job.rule {
            Some(rule) => (program::motion(rule), program::change(rule)),
            None => (
                program::rows(job.codes.first()?),
                job.codes.get(1).map(|code| program::rows(code)),
            ),
        };
        let change = match change {
            Some(rows) => Some(instructions(&rows)?),
            None => None,
        };
        Some(Programs {
            motion: instructions(&motion)?,
            change,
        })
    }
}

fn instructions(rows: &[Row]) -> Option<Vec<Instr>> {
    rows.iter().map(program::read).collect()
}

impl Driver for Programs {
    fn changes_lanes(&self) -> bool {
        self.change.is_some()
    }

    #[inline(always)]
    fn speed(&self, view: &View, words: &mut Words, car: usize) -> u32 {
        match machine::run(&self.motion, view, words, car) {
            Answer::Go(speed) => speed,
            Answer::Cross | Answer::Stay => 0,
        }
    }

    #[inline(always)]
    fn crosses(&self, view: &View, words: &mut Words, car: usize) -> bool {
        let Some(change) = &self.change else {
            return false;
        };
        matches!(machine::run(change, view, words, car), Answer::Cross)
    }
}

fn main() -> io::Result<()> {
    let job = job_from_input()?;
    let driver = Programs::of(&job).ok_or_else(|| io::Error::from(io::ErrorKind::InvalidData))?;
    run(job, &driver)
}

#[cfg(test)]
mod tests {
    use common::{read_job, Dice};

    use super::Programs;

    #[test]
    fn the_last_car_sees_how_fast_the_first_was() {
        // As fast as the next car ahead, but at most the gap. In its byte code `headspeed` is input 6.
        let text = "limit 12\nlane 3.b.......\nrule own\ncode 54524c4202000400\
            020006000000000002010200000000000a000001000000001400000000000000\nsteps 1\n";
        let mut job = read_job(text).expect("a job");
        let driver = Programs::of(&job).expect("a program");
        let (key, road, step) = (&job.key, 0, 0);
        job.road.step(&driver, Dice { key, road, step });
        let mut picture = Vec::new();
        job.road.draw(&mut picture);
        assert_eq!(picture, b".1...3....\n");
    }
}
