//! Sweeps with a standard rule, and the tables of their points.

use std::fmt::{self, Write};

use crate::chacha::Dice;
use crate::job::{read_key, read_rule, Rule};
use crate::road::{Driver, Road};

/// The content of a sweep file.
pub struct Sweep {
    key: [u32; 8],
    limit: u32,
    length: u32,
    lanes: u32,
    pub rule: Rule,
    /// The steps before the counted ones.
    warm: u32,
    measure: u32,
    /// The number of cars of each point.
    cars: Vec<u32>,
}

/// The counts of one road.
#[derive(Default)]
struct Tally {
    distance: u64,
    stopped: u64,
    changes: u64,
}

/// Reads a sweep with a standard rule; `None` for any other input.
pub fn read_sweep(text: &str) -> Option<Sweep> {
    let mut lines = text.lines().map(|line| line.split(' ').collect::<Vec<_>>());
    let mut next = |name| lines.next().filter(|words| words[0] == name);
    let number = |words: Vec<&str>| words.get(1)?.parse::<u32>().ok();
    next("sweep")?;
    Some(Sweep {
        key: read_key(next("key")?.get(1)?)?,
        limit: number(next("limit")?)?,
        length: number(next("length")?)?,
        lanes: number(next("lanes")?)?,
        rule: read_rule(&next("rule")?)?,
        warm: number(next("warm")?)?,
        measure: number(next("measure")?)?,
        cars: lines.map(number).collect::<Option<_>>()?,
    })
}

impl Sweep {
    /// The table of the points.
    pub fn table(&self, driver: &impl Driver) -> Result<String, fmt::Error> {
        let cells = u64::from(self.lanes) * u64::from(self.length);
        let mut table = String::from("cars,cells,steps,distance,stopped,changes,flow\n");
        for (&cars, number) in self.cars.iter().zip(0..) {
            let Tally {
                distance,
                stopped,
                changes,
            } = self.drive(cars, number, driver);
            let flow = distance * 1_000_000 / (cells * u64::from(self.measure));
            let steps = self.measure;
            writeln!(
                table,
                "{cars},{cells},{steps},{distance},{stopped},{changes},{flow}"
            )?;
        }
        Ok(table)
    }

    /// Runs the road with a number, and returns its counts.
    fn drive(&self, cars: u32, number: u32, driver: &impl Driver) -> Tally {
        let mut road = Road::even(self.lanes, self.length, self.limit, cars);
        let mut tally = Tally::default();
        for step in 0..self.warm + self.measure {
            let crossed = road.step(
                driver,
                Dice {
                    key: &self.key,
                    road: number,
                    step,
                },
            );
            if step >= self.warm {
                tally.changes += crossed as u64;
                for car in road.lanes().iter().flatten() {
                    tally.distance += u64::from(car.speed);
                    tally.stopped += u64::from(car.speed == 0);
                }
            }
        }
        tally
    }
}
