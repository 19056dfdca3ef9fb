//! What the programs share: chosen bytes, blocks of samples, and a count of what is the same and what differs.
mod items;

use std::collections::BTreeMap;
use std::io::Read;

/// Numbers that look random, by xorshift.
#[derive(Clone)]
pub struct Chooser(pub u64);

impl Chooser {
    pub fn new(seed: u64) -> Chooser {
        Chooser(seed | 1)
    }

    pub fn next(&mut self) -> u64 {
        self.0 ^= self.0 << 13;
        self.0 ^= self.0 >> 7;
        self.0 ^= self.0 << 17;
        self.0
    }

    pub fn below(&mut self, limit: u64) -> u64 {
        (self.next() >> 11) % limit
    }

    pub fn one_of<T: Copy>(&mut self, some: &[T]) -> T {
        some[self.below(some.len() as u64) as usize]
    }
}

/// A block of samples: as the package reads one, and by an iterator.
pub trait Blocks {
    type Error;
    fn block<S: original::Sample + package::Sample>(&mut self, samples: &mut [S]) -> (usize, Result<(), Self::Error>);
}

impl<R: Read> Blocks for original::WavReader<R> {
    type Error = original::Error;
    fn block<S: original::Sample + package::Sample>(
        &mut self,
        samples: &mut [S],
    ) -> (usize, Result<(), original::Error>) {
        let wanted = samples.len();
        for (count, slot) in samples.iter_mut().enumerate() {
            match self.samples().next() {
                Some(Ok(sample)) => *slot = sample,
                Some(Err(error)) => return (count, Err(error)),
                None => return (count, Ok(())),
            }
        }
        (wanted, Ok(()))
    }
}

impl<R: Read> Blocks for package::WavReader<R> {
    type Error = package::Error;
    fn block<S: original::Sample + package::Sample>(
        &mut self,
        samples: &mut [S],
    ) -> (usize, Result<(), package::Error>) {
        package::blocks::ReadSamples::read_samples(self, samples)
    }
}

/// The cases that are the same with both, and the others by their reasons.
#[derive(Default)]
pub struct Tally {
    same: u64,
    differences: BTreeMap<&'static str, u64>,
    unexplained: u64,
}

impl Tally {
    pub fn same(&mut self) {
        self.same += 1;
    }

    /// Counts a difference that is listed.
    pub fn listed(&mut self, reason: &'static str) {
        *self.differences.entry(reason).or_default() += 1;
    }

    /// Counts a difference that isn't, and writes the first ones out.
    pub fn unexplained(&mut self, what: impl FnOnce() -> String) {
        self.unexplained += 1;
        if self.unexplained <= 3 {
            println!("{}", what());
        }
    }

    /// Writes all counts out, and ends the program.
    pub fn end(self, name: &str) -> ! {
        println!("{name}: {} the same", self.same);
        for (reason, count) in &self.differences {
            println!("{name}: {count} differ, as listed: {reason}");
        }
        println!("{name}: {} unexplained", self.unexplained);
        std::process::exit((self.unexplained > 0) as i32)
    }
}

/// The same module for each of the two crates.
#[macro_export]
macro_rules! both {
    ($($item:item)*) => {
        mod by_original {
            use super::*;
            use original as hound;
            $($item)*
        }
        mod by_package {
            use super::*;
            use package as hound;
            $($item)*
        }
    };
}
