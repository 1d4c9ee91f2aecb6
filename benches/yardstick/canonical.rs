//! Reads the canonical text of a network line by line, and takes nothing else.

use crate::net::{MAX_AMOUNT, MAX_COMPLEXES, MAX_NAME, MAX_SPECIES, NAME, Net, Quickly, Row};
use std::collections::HashMap;

pub struct Canonical {
    species: Vec<Box<[u8]>>,
    numbers: HashMap<Row, u32, Quickly>,
    complexes: Vec<Row>,
    joined: Vec<bool>,
    reactions: Vec<(u32, u32)>,
}

impl Canonical {
    pub fn new() -> Canonical {
        Canonical {
            species: Vec::with_capacity(MAX_SPECIES),
            numbers: HashMap::default(),
            complexes: Vec::with_capacity(MAX_COMPLEXES),
            joined: vec![false; MAX_COMPLEXES * MAX_COMPLEXES],
            reactions: Vec::new(),
        }
    }

    /// The species of a name, not below `least`. A new one gets the next number.
    fn species_of(&mut self, name: &[u8], least: usize) -> Option<usize> {
        if let Some(place) = self.species[least..].iter().position(|known| **known == *name) {
            return Some(least + place);
        }
        let is_new = name.len() <= MAX_NAME && self.species.len() < MAX_SPECIES;
        if !is_new || self.species[..least].iter().any(|known| **known == *name) {
            return None;
        }
        self.species.push(name.into());
        Some(self.species.len() - 1)
    }

    fn side(&mut self, side: &[u8]) -> Option<u32> {
        let mut row = [0; MAX_SPECIES];
        let (mut rest, mut least) = (side, 0);
        while side != b"0" {
            let digits = rest.iter().position(|byte| !byte.is_ascii_digit())?;
            let amount = match &rest[..digits] {
                [] => 1,
                [b'0', ..] | [b'1'] => return None,
                digits if digits.len() <= 2 => {
                    digits.iter().fold(0, |amount, digit| amount * 10 + u32::from(digit - b'0'))
                }
                _ => return None,
            };
            debug_assert!(amount <= MAX_AMOUNT);
            rest = &rest[digits..];
            let length = rest.iter().position(|byte| NAME[*byte as usize] == 0).unwrap_or(rest.len());
            if length == 0 {
                return None;
            }
            let species = self.species_of(&rest[..length], least)?;
            row[species] = amount as u8;
            least = species + 1;
            rest = &rest[length..];
            if rest.is_empty() {
                break;
            }
            rest = rest.strip_prefix(b" + ")?;
        }
        let next = self.complexes.len() as u32;
        let number = *self.numbers.entry(row).or_insert(next);
        if number == next {
            if self.complexes.len() == MAX_COMPLEXES {
                return None;
            }
            self.complexes.push(row);
        }
        Some(number)
    }

    /// With one more reaction, where this line gives one that is new.
    pub fn with(mut self, line: &[u8]) -> Option<Canonical> {
        let arrow = line.iter().position(|byte| *byte == b'>').filter(|place| *place >= 3)?;
        let left = line[..=arrow].strip_suffix(b" ->")?;
        let right = line[arrow + 1..].strip_prefix(b" ")?;
        let (from, to) = (self.side(left)?, self.side(right)?);
        let joined = &mut self.joined[from as usize * MAX_COMPLEXES + to as usize];
        if from == to || std::mem::replace(joined, true) {
            return None;
        }
        self.reactions.push((from, to));
        Some(self)
    }

    pub fn finish(self) -> Net {
        Net::new(self.species, self.complexes, self.reactions)
    }
}
