//! Jobs with a standard rule or with programs in byte code, and the lines that sweeps share with jobs.

use crate::road::{Car, Road};

/// A standard rule; each probability p is written as p * 2^31.
#[derive(Clone, Copy, Debug, PartialEq, Eq)]
pub enum Rule {
    Nasch { brake: u32 },
    Vdr { brake: u32, start: u32 },
    Rickert { brake: u32, change: u32 },
}

/// The content of a job file.
pub struct Job {
    /// The key of 32 bytes, as words.
    pub key: [u32; 8],
    pub road: Road,
    /// The rule, if it is a standard one.
    pub rule: Option<Rule>,
    /// The bytes of the programs of `rule own`: the motion program, and the change program if there is one.
    pub codes: Vec<Vec<u8>>,
    pub steps: u32,
}

/// Reads a job with a single rule, whose own programs are byte code; `None` for any other input.
pub fn read_job(text: &str) -> Option<Job> {
    let (mut key, mut limit, mut length, mut steps, mut rule) = ([0; 8], 0, 0, 0, None);
    let (mut lanes, mut codes): (Vec<Vec<Car>>, _) = (Vec::new(), Vec::new());
    for line in text.lines() {
        let words: Vec<&str> = line.split(' ').collect();
        let number = |k: usize| words.get(k)?.parse::<u32>().ok();
        match words[0] {
            "road" => {}
            "key" => key = read_key(words.get(1)?)?,
            "limit" => limit = number(1)?,
            "lane" => {
                let first = lanes.iter().map(Vec::len).sum::<usize>() as u32;
                lanes.push(read_lane(words.get(1)?, first)?);
                length = words[1].len() as u32;
            }
            "rule" if words[1..] == ["own"] => {}
            "rule" => rule = Some(read_rule(&words)?),
            "code" => codes.push(read_bytes(words.get(1)?)?),
            "steps" => steps = number(1)?,
            _ => return None,
        }
    }
    let road = Road::new(length, limit, lanes);
    Some(Job {
        key,
        road,
        rule,
        codes,
        steps,
    })
}

/// The standard rule that the words of a line describe.
pub fn read_rule(words: &[&str]) -> Option<Rule> {
    let number = |k: usize| words.get(k)?.parse().ok();
    Some(match *words.get(1)? {
        "nasch" => Rule::Nasch { brake: number(2)? },
        "vdr" => Rule::Vdr {
            brake: number(2)?,
            start: number(3)?,
        },
        "rickert" => Rule::Rickert {
            brake: number(2)?,
            change: number(3)?,
        },
        _ => return None,
    })
}

pub fn read_key(hex: &str) -> Option<[u32; 8]> {
    let mut key = [0; 8];
    for (k, word) in key.iter_mut().enumerate() {
        let digits = hex.get(8 * k..8 * k + 8)?;
        *word = u32::from_str_radix(digits, 16).ok()?.swap_bytes();
    }
    Some(key)
}

fn read_bytes(hex: &str) -> Option<Vec<u8>> {
    let digits = (0..hex.len()).step_by(2);
    digits
        .map(|k| u8::from_str_radix(hex.get(k..k + 2)?, 16).ok())
        .collect()
}

/// The cars of a lane, numbered from `first` on.
fn read_lane(picture: &str, first: u32) -> Option<Vec<Car>> {
    let cells = picture
        .bytes()
        .enumerate()
        .filter(|(_, cell)| *cell != b'.');
    cells
        .zip(first..)
        .map(|((place, cell), number)| {
            Some(Car {
                number,
                place: place as u32,
                speed: char::from(cell).to_digit(36)?,
            })
        })
        .collect()
}
