//! A run from standard input to standard output.

use std::io::{self, Read, Write};

use crate::chacha::Dice;
use crate::job::{read_job, Job};
use crate::road::Driver;
use crate::sweep::{read_sweep, Sweep};

/// Snapshots are written once this number of bytes has accumulated.
const ENOUGH: usize = 1 << 16;

/// The result of a reader for the text on standard input.
fn from_input<T>(read: impl FnOnce(&str) -> Option<T>) -> io::Result<T> {
    let mut text = String::new();
    io::stdin().read_to_string(&mut text)?;
    read(&text).ok_or_else(|| io::Error::from(io::ErrorKind::InvalidData))
}

/// The job on standard input.
pub fn job_from_input() -> io::Result<Job> {
    from_input(read_job)
}

/// The sweep on standard input.
pub fn sweep_from_input() -> io::Result<Sweep> {
    from_input(read_sweep)
}

/// Runs a job, and writes the same output as `trlab run`.
pub fn run(mut job: Job, driver: &impl Driver) -> io::Result<()> {
    let mut out = io::stdout().lock();
    let mut pictures = Vec::with_capacity(2 * ENOUGH);
    for step in 0..=job.steps {
        writeln!(pictures, "step {step}")?;
        job.road.draw(&mut pictures);
        if pictures.len() >= ENOUGH {
            out.write_all(&pictures)?;
            pictures.clear();
        }
        if step < job.steps {
            let key = &job.key;
            job.road.step(driver, Dice { key, road: 0, step });
        }
    }
    out.write_all(&pictures)?;
    out.flush()
}
