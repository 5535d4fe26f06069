//! Random words: the block function of ChaCha20 (RFC 8439, with a counter and a stream of 64 bits),
//! computed in parallel for the cars of a group in one step.

use crate::lanes::{Lanes, GROUP};

/// Probability 1; a probability p is written as p * 2^31.
const CERTAIN: u32 = 1 << 31;

const CONSTANTS: [u32; 4] = [0x6170_7865, 0x3320_646e, 0x7962_2d32, 0x6b20_6574];

#[inline(always)]
fn quarter(x: &mut [Lanes; 16], a: usize, b: usize, c: usize, d: usize) {
    x[a] = x[a].plus(x[b]);
    x[d] = x[d].xor_rotated::<16, 16>(x[a]);
    x[c] = x[c].plus(x[d]);
    x[b] = x[b].xor_rotated::<12, 20>(x[c]);
    x[a] = x[a].plus(x[b]);
    x[d] = x[d].xor_rotated::<8, 24>(x[a]);
    x[c] = x[c].plus(x[d]);
    x[b] = x[b].xor_rotated::<7, 25>(x[c]);
}

/// The key, the road and the step; with the number of a car, they determine its random words.
#[derive(Clone, Copy)]
pub struct Dice<'a> {
    pub key: &'a [u32; 8],
    /// The number of the road.
    pub road: u32,
    pub step: u32,
}

/// Word k, below 16, of each car of a group in a step.
#[inline]
pub fn word_of_cars(dice: Dice, cars: [u32; GROUP], k: usize) -> [u32; GROUP] {
    let mut first = [Lanes::all(0); 16];
    for k in 0..4 {
        first[k] = Lanes::all(CONSTANTS[k]);
    }
    for k in 0..8 {
        first[4 + k] = Lanes::all(dice.key[k]);
    }
    first[12] = Lanes::all(dice.step);
    first[14] = Lanes::of(cars);
    first[15] = Lanes::all(dice.road);
    let mut x = first;
    for _ in 0..10 {
        quarter(&mut x, 0, 4, 8, 12);
        quarter(&mut x, 1, 5, 9, 13);
        quarter(&mut x, 2, 6, 10, 14);
        quarter(&mut x, 3, 7, 11, 15);
        quarter(&mut x, 0, 5, 10, 15);
        quarter(&mut x, 1, 6, 11, 12);
        quarter(&mut x, 2, 7, 8, 13);
        quarter(&mut x, 3, 4, 9, 14);
    }
    x[k].plus(first[k]).words()
}

/// The random words of at most one group of cars in one step, computed when one of them is first needed.
pub struct Words<'a> {
    dice: Dice<'a>,
    cars: [u32; GROUP],
    made: Option<(usize, [u32; GROUP])>,
}

impl<'a> Words<'a> {
    pub fn new(dice: Dice<'a>, cars: [u32; GROUP]) -> Self {
        Words {
            dice,
            cars,
            made: None,
        }
    }

    /// Whether word k of a car of the group is below a probability, which is given as p * 2^31.
    #[inline(always)]
    pub fn happens(&mut self, car: usize, k: usize, chance: u32) -> bool {
        match chance {
            0 => false,
            CERTAIN.. => true,
            _ => self.words(k)[car] / 2 < chance,
        }
    }

    #[inline(always)]
    fn words(&mut self, k: usize) -> [u32; GROUP] {
        match self.made {
            Some((of, words)) if of == k => words,
            _ => {
                let words = word_of_cars(self.dice, self.cars, k);
                self.made = Some((k, words));
                words
            }
        }
    }
}

#[cfg(test)]
mod tests {
    use super::{word_of_cars, Dice, GROUP};

    fn dice(key: &[u32; 8], road: u32, step: u32) -> Dice<'_> {
        Dice { key, road, step }
    }

    #[test]
    fn the_zero_key_begins_as_published() {
        let zero = dice(&[0; 8], 0, 0);
        assert_eq!(word_of_cars(zero, [0; GROUP], 0)[0], 2917185654);
        assert_eq!(word_of_cars(zero, [0; GROUP], 1)[0], 2419978656);
    }

    #[test]
    fn a_car_has_the_same_word_at_every_place_of_a_group() {
        let (key, cars) = (
            [1, 2, 3, 4, 5, 6, 7, 8],
            std::array::from_fn(|k| 9 + k as u32),
        );
        let mut turned = cars;
        turned.reverse();
        let mut words = word_of_cars(dice(&key, 2, 5), cars, 3);
        assert_ne!(words[0], words[1]);
        words.reverse();
        assert_eq!(word_of_cars(dice(&key, 2, 5), turned, 3), words);
    }
}
