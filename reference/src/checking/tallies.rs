//! Counts of tuples: those of one width in one hashed map, with both counts beside each other.
use crate::mixer::Mixing;
use std::collections::HashMap;
use std::ops::AddAssign;

/// How often tuples of one width are asked and given.
pub struct Tally<const N: usize, C = u32>(HashMap<[u64; N], [C; 2], Mixing>);

/// A tuple that is not asked as often as given, and both counts.
pub type Apart = (Vec<u64>, u128, u128);

impl<const N: usize, C> Default for Tally<N, C> {
    fn default() -> Tally<N, C> {
        Tally(HashMap::default())
    }
}

impl<const N: usize, C: AddAssign + Copy + Default + From<u8> + Into<u128> + PartialEq> Tally<N, C> {
    pub fn ask(&mut self, tuple: [u64; N]) {
        self.0.entry(tuple).or_default()[0] += C::from(1);
    }

    pub fn give(&mut self, tuple: [u64; N]) {
        self.add(tuple, C::from(1));
    }

    pub fn add(&mut self, tuple: [u64; N], count: C) {
        self.0.entry(tuple).or_default()[1] += count;
    }

    /// Adds the counts of others.
    pub fn absorb(&mut self, other: Tally<N, C>) {
        for (tuple, [asked, given]) in other.0 {
            let both = self.0.entry(tuple).or_default();
            both[0] += asked;
            both[1] += given;
        }
    }

    /// The least tuple whose counts differ.
    pub fn apart(&self) -> Option<Apart> {
        let unequal = self.0.iter().filter(|(_, [asked, given])| asked != given);
        let least = unequal.min_by_key(|(tuple, _)| **tuple);
        least.map(|(tuple, [asked, given])| (tuple.to_vec(), (*asked).into(), (*given).into()))
    }
}

/// The same of single values, of which those below 2^16 have a place each.
pub struct ValueTally {
    small: Vec<[u128; 2]>,
    great: Tally<1, u128>,
}

impl Default for ValueTally {
    fn default() -> ValueTally {
        ValueTally { small: vec![[0; 2]; 65536], great: Tally::default() }
    }
}

impl ValueTally {
    pub fn ask(&mut self, value: u64) {
        match self.small.get_mut(value as usize) {
            Some(both) => both[0] += 1,
            None => self.great.ask([value]),
        }
    }

    pub fn give(&mut self, value: u64, count: u64) {
        match self.small.get_mut(value as usize) {
            Some(both) => both[1] += u128::from(count),
            None => self.great.add([value], count.into()),
        }
    }

    /// Adds the counts of others.
    pub fn absorb(&mut self, other: ValueTally) {
        for (both, [asked, given]) in self.small.iter_mut().zip(other.small) {
            both[0] += asked;
            both[1] += given;
        }
        self.great.absorb(other.great);
    }

    /// The least value whose counts differ.
    pub fn apart(&self) -> Option<Apart> {
        let small = self.small.iter().position(|[asked, given]| asked != given);
        small.map(|v| (vec![v as u64], self.small[v][0], self.small[v][1])).or_else(|| self.great.apart())
    }
}
