//! The code that is common to the programs with which trlab is compared: job and sweep files, random words, roads as
//! sorted lists of cars, snapshots, and tables. Each program adds only the way in which it drives cars.

mod chacha;
mod job;
mod lanes;
mod road;
mod run;
mod sweep;

pub use chacha::{word_of_cars, Dice, Words};
pub use job::{read_job, Job, Rule};
pub use lanes::GROUP;
pub use road::{Car, Driver, Road, View};
pub use run::{job_from_input, run, sweep_from_input};
pub use sweep::Sweep;
