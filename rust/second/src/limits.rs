//! Document 01, "Numbers", and the one that document 02 adds.

use std::ops::RangeInclusive;

pub const NODES: RangeInclusive<u32> = 1..=64;
pub const SLOTS: RangeInclusive<u32> = 1..=1_024;
pub const RULES: RangeInclusive<u32> = FAIR..=LEAST;
pub const QUEUE: RangeInclusive<u32> = 1..=65_535;

pub const FAIR: u32 = 0;
pub const LEAST: u32 = 1;

/// The highest demand or arrival of one pair.
pub const DEMAND: u32 = 65_535;

/// How many posts, and how many frames, a run accepts.
pub const CALLS: u32 = 1_000_000;

/// The longest input of a program, in bytes.
pub const INPUT: usize = 65_536;

/// The most digits of a number in the matrix program's input.
pub const DIGITS: usize = 9;

/// The most entries of a scenario file.
pub const ENTRIES: usize = 4_096;
