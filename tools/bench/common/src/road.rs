//! Roads: the cars of each lane as a list in order of their cells, and the two phases of a step.

use std::mem::swap;

use crate::chacha::{Dice, Words};
use crate::lanes::GROUP;

/// The character for each speed in a snapshot.
const SPEEDS: &[u8; 36] = b"0123456789abcdefghijklmnopqrstuvwxyz";

#[derive(Clone, Copy, Debug, PartialEq, Eq)]
pub struct Car {
    pub number: u32,
    pub place: u32,
    pub speed: u32,
}

/// The inputs that a car sees. In the motion phase it sees nothing of the other lane.
#[derive(Clone, Copy, Default)]
pub struct View {
    pub speed: u32,
    pub limit: u32,
    pub gap: u32,
    /// Whether the side cell is empty.
    pub side: bool,
    pub sidegap: u32,
    pub sideback: u32,
    pub lane: u32,
    /// The speed of the next car ahead, before the step.
    pub headspeed: u32,
}

/// How cars are driven. `car` is the index of a car in its group, whose random words are passed too.
pub trait Driver {
    /// Whether there is a lane change before the motion.
    fn changes_lanes(&self) -> bool;

    /// The new speed of a car.
    fn speed(&self, view: &View, words: &mut Words, car: usize) -> u32;

    /// Whether a car changes to the other lane.
    fn crosses(&self, view: &View, words: &mut Words, car: usize) -> bool;
}

pub struct Road {
    length: u32,
    limit: u32,
    lanes: Vec<Vec<Car>>,
    /// Buffers for a lane that is being made, and for the cars that leave each lane.
    made: Vec<Car>,
    leaving: [Vec<Car>; 2],
}

impl Road {
    pub fn new(length: u32, limit: u32, lanes: Vec<Vec<Car>>) -> Self {
        Road {
            length,
            limit,
            lanes,
            made: Vec::new(),
            leaving: [Vec::new(), Vec::new()],
        }
    }

    pub fn lanes(&self) -> &[Vec<Car>] {
        &self.lanes
    }

    /// A road of evenly spaced cars, all stopped.
    pub fn even(lanes: u32, length: u32, limit: u32, cars: u32) -> Self {
        let mut spread = vec![Vec::new(); lanes as usize];
        for number in 0..cars {
            let cells = u64::from(lanes) * u64::from(length);
            let cell = (u64::from(number) * cells / u64::from(cars)) as u32;
            spread[(cell % lanes) as usize].push(Car {
                number,
                place: cell / lanes,
                speed: 0,
            });
        }
        Road::new(length, limit, spread)
    }

    /// Takes one step, and returns the number of lane changes.
    pub fn step(&mut self, driver: &impl Driver, dice: Dice) -> usize {
        let crossed = if driver.changes_lanes() {
            self.exchange(driver, dice)
        } else {
            0
        };
        self.drive(driver, dice);
        crossed
    }

    /// Moves all cars at once.
    fn drive(&mut self, driver: &impl Driver, dice: Dice) {
        let (length, limit) = (self.length, self.limit);
        for lane in &mut self.lanes {
            let Some(&first) = lane.first() else {
                continue;
            };
            let (cars, mut wrapped) = (lane.len(), 0);
            for start in (0..cars).step_by(GROUP) {
                let mut words = Words::new(dice, numbers(&lane[start..]));
                for k in start..cars.min(start + GROUP) {
                    let next = lane.get(k + 1).copied().unwrap_or(first);
                    let car = &mut lane[k];
                    let view = View {
                        speed: car.speed,
                        limit,
                        gap: between(length, car.place, next.place),
                        headspeed: next.speed,
                        ..View::default()
                    };
                    car.speed = driver.speed(&view, &mut words, k - start);
                    car.place += car.speed;
                    if car.place >= length {
                        car.place -= length;
                        wrapped += 1;
                    }
                }
            }
            // The cars that passed the end of the ring were the last ones, and are now the first ones.
            lane.rotate_right(wrapped);
        }
    }

    /// Changes the lanes of all cars at once, and returns the number of lane changes.
    fn exchange(&mut self, driver: &impl Driver, dice: Dice) -> usize {
        for own in 0..2 {
            let mut leaving = std::mem::take(&mut self.leaving[own]);
            leaving.clear();
            self.cars_that_leave(own, driver, dice, &mut leaving);
            self.leaving[own] = leaving;
        }
        let crossed = self.leaving.iter().map(Vec::len).sum();
        if crossed > 0 {
            for own in 0..2 {
                exchanged(
                    &self.lanes[own],
                    &self.leaving[own],
                    &self.leaving[1 - own],
                    &mut self.made,
                );
                swap(&mut self.lanes[own], &mut self.made);
            }
        }
        crossed
    }

    /// Finds the cars of a lane that change to the other one. The index `at` moves along the other lane.
    fn cars_that_leave(
        &self,
        own: usize,
        driver: &impl Driver,
        dice: Dice,
        leaving: &mut Vec<Car>,
    ) {
        let (lane, other) = (&self.lanes[own], &self.lanes[1 - own]);
        let mut at = 0;
        for (start, group) in (0..).step_by(GROUP).zip(lane.chunks(GROUP)) {
            let mut words = Words::new(dice, numbers(group));
            for (k, car) in group.iter().enumerate() {
                while other.get(at).is_some_and(|ahead| ahead.place < car.place) {
                    at += 1;
                }
                let next = lane.get(start + k + 1).unwrap_or(&lane[0]);
                let view = View {
                    speed: car.speed,
                    limit: self.limit,
                    gap: between(self.length, car.place, next.place),
                    headspeed: next.speed,
                    lane: own as u32,
                    ..self.beside(car.place, other, at)
                };
                if driver.crosses(&view, &mut words, k) {
                    leaving.push(*car);
                }
            }
        }
    }

    /// The inputs of a car from the other lane, whose first car that is not behind it has the index `at`.
    #[inline(always)]
    fn beside(&self, place: u32, other: &[Car], at: usize) -> View {
        let (Some(first), Some(last)) = (other.first(), other.last()) else {
            let free = self.length - 1;
            return View {
                side: true,
                sidegap: free,
                sideback: free,
                ..View::default()
            };
        };
        let ahead = other.get(at).unwrap_or(first);
        if ahead.place == place {
            return View::default();
        }
        let behind = if at == 0 { last } else { &other[at - 1] };
        View {
            side: true,
            sidegap: between(self.length, place, ahead.place),
            sideback: between(self.length, behind.place, place),
            ..View::default()
        }
    }

    /// Appends the snapshot: one line per lane.
    pub fn draw(&self, out: &mut Vec<u8>) {
        for lane in &self.lanes {
            let begin = out.len();
            out.resize(begin + self.length as usize, b'.');
            let cells = &mut out[begin..];
            for car in lane {
                cells[car.place as usize] = SPEEDS[car.speed as usize];
            }
            out.push(b'\n');
        }
    }
}

/// The number of empty cells from one car to the next one, on a ring.
#[inline(always)]
fn between(length: u32, from: u32, to: u32) -> u32 {
    if to > from {
        to - from - 1
    } else {
        to + length - from - 1
    }
}

/// The numbers of the cars of the first group; 0 for each car that is missing from it.
#[inline(always)]
fn numbers(cars: &[Car]) -> [u32; GROUP] {
    match cars.first_chunk() {
        Some(group) => group.map(|car| car.number),
        None => std::array::from_fn(|k| cars.get(k).map_or(0, |car| car.number)),
    }
}

/// Makes the new lane: its cars without those that leave it, and with those that come.
fn exchanged(lane: &[Car], mut leaving: &[Car], mut coming: &[Car], made: &mut Vec<Car>) {
    made.clear();
    for car in lane {
        while let [next, rest @ ..] = coming {
            if next.place > car.place {
                break;
            }
            made.push(*next);
            coming = rest;
        }
        match leaving {
            [gone, rest @ ..] if gone.number == car.number => leaving = rest,
            _ => made.push(*car),
        }
    }
    made.extend_from_slice(coming);
}
