//! Inputs for tests: random numbers that can be repeated, families of demands, faults together.

use std::env;
use std::time::{SystemTime, UNIX_EPOCH};

use crate::limits;

/// The generator splitmix64.
pub struct Random(u64);

impl Random {
    /// Seeded by the environment variable SEED, otherwise by the clock. The seed is printed: a test
    /// that fails shows it.
    pub fn announced() -> Random {
        let seed = match env::var("SEED") {
            Ok(seed) => seed.parse().expect("SEED is a 64-bit number"),
            Err(_) => {
                let since = SystemTime::now().duration_since(UNIX_EPOCH);
                since.expect("the clock is past 1970").as_nanos() as u64
            }
        };
        println!("to repeat: SEED={seed}");
        Random(seed)
    }

    pub fn seeded(seed: u64) -> Random {
        Random(seed)
    }

    pub fn word(&mut self) -> u64 {
        self.0 = self.0.wrapping_add(0x9e37_79b9_7f4a_7c15);
        let mixed = (self.0 ^ (self.0 >> 30)).wrapping_mul(0xbf58_476d_1ce4_e5b9);
        let mixed = (mixed ^ (mixed >> 27)).wrapping_mul(0x94d0_49bb_1331_11eb);
        mixed ^ (mixed >> 31)
    }

    pub fn words(&mut self, count: usize) -> Vec<u32> {
        (0..count).map(|_| self.word() as u32).collect()
    }

    pub fn bytes(&mut self, count: usize) -> Vec<u8> {
        (0..count).map(|_| self.word() as u8).collect()
    }

    /// From 0 up to but not including `end`.
    pub fn below(&mut self, end: usize) -> usize {
        (self.word() % end as u64) as usize
    }

    /// From 0 to `top`.
    pub fn up_to(&mut self, top: u32) -> u32 {
        self.below(top as usize + 1) as u32
    }

    pub fn one_in(&mut self, times: usize) -> bool {
        self.below(times) == 0
    }

    pub fn pick<T: Copy>(&mut self, choices: &[T]) -> T {
        choices[self.below(choices.len())]
    }

    /// A number of nodes, more often few than many.
    pub fn nodes(&mut self) -> usize {
        let top = self.pick(&[2, 4, 8, 16, 64]);
        1 + self.below(top)
    }

    /// A number of slots, more often few than many.
    pub fn slots(&mut self) -> u32 {
        let top = self.pick(&[2, 8, 32, 128, 1_024]);
        1 + self.up_to(top - 1)
    }

    /// N×N demands of one family, around the load at which lines of L slots begin to overflow.
    pub fn demand(&mut self, n: usize, slots: u32) -> Vec<u32> {
        let (_, family) = self.pick(&FAMILIES);
        family(self, n, slots)
    }

    fn permutation(&mut self, n: usize) -> Vec<usize> {
        let mut order: Vec<usize> = (0..n).collect();
        for last in (1..n).rev() {
            order.swap(last, self.below(last + 1));
        }
        order
    }
}

/// Takes N and L and gives N×N demands.
pub type Family = fn(&mut Random, usize, u32) -> Vec<u32>;

pub const FAMILIES: [(&str, Family); 17] = [
    ("zero", |_, n, _| cells(n, |_, _| 0)),
    ("constant", |random, n, slots| {
        let v = random.up_to(share(n, slots));
        cells(n, |_, _| v)
    }),
    ("uniform", |random, n, slots| {
        cells(n, |_, _| random.up_to(share(n, slots)))
    }),
    ("half load", |random, n, slots| {
        cells(n, |_, _| random.up_to(share(n, slots) / 2))
    }),
    ("double load", |random, n, slots| {
        cells(n, |_, _| random.up_to(2 * share(n, slots)))
    }),
    ("sparse", |random, n, slots| {
        let rarity = 2 + random.below(n);
        cells(n, |_, _| {
            let asked = random.one_in(rarity);
            if asked { random.up_to(2 * slots) } else { 0 }
        })
    }),
    ("hot spot", |random, n, slots| {
        let (source, destination) = (random.below(n), random.below(n));
        cells(n, |i, j| {
            let hot = i == source || j == destination;
            random.up_to(if hot { slots } else { share(n, slots) / 2 })
        })
    }),
    ("one line full", |random, n, slots| {
        let line = random.below(2 * n);
        let mut demand = vec![0; n * n];
        for _ in 0..slots {
            let t = random.below(n);
            let cell = if line < n {
                line * n + t
            } else {
                t * n + line - n
            };
            demand[cell] += 1;
        }
        demand
    }),
    ("extremes", |random, n, _| {
        cells(n, |_, _| {
            random.pick(&[0, 1, limits::DEMAND - 1, limits::DEMAND])
        })
    }),
    ("full", |random, n, slots| permutations(random, n, slots)),
    ("just over full", |random, n, slots| {
        let beyond = 1 + random.up_to(1);
        permutations(random, n, slots + beyond)
    }),
    ("banded", |random, n, slots| {
        let width = 1 + random.below(3);
        cells(n, |i, j| {
            let near = i.abs_diff(j) <= width;
            if near { random.up_to(slots) } else { 0 }
        })
    }),
    ("triangular", |random, n, slots| {
        cells(n, |i, j| {
            let above = i <= j;
            if above {
                random.up_to(2 * share(n, slots))
            } else {
                0
            }
        })
    }),
    ("blocks", |random, n, slots| {
        let size = 1 + random.below(n);
        cells(n, |i, j| {
            let inside = i / size == j / size;
            if inside {
                random.up_to(2 * share(size, slots))
            } else {
                0
            }
        })
    }),
    ("log-uniform", |random, n, _| {
        cells(n, |_, _| {
            let bits = random.up_to(16);
            random.up_to((1 << bits) - 1)
        })
    }),
    ("staircase", staircase),
    ("chain", chain),
];

/// The family of this name.
pub fn family(name: &str) -> Family {
    let named = FAMILIES.iter().find(|family| family.0 == name);
    named.expect("there is such a family").1
}

/// As many permutations, added up: every line asks for `count`.
fn permutations(random: &mut Random, n: usize, count: u32) -> Vec<u32> {
    let mut demand = vec![0; n * n];
    for _ in 0..count {
        for (i, j) in random.permutation(n).into_iter().enumerate() {
            demand[i * n + j] += 1;
        }
    }
    demand
}

/// Half of the rows and half of the columns have the same excess, and pair (i,j) asks where i+j is
/// below N/2. Each row can be withdrawn from at the last of its columns; who begins at the first
/// column leaves nothing to the lower rows. The other lines do not overflow.
fn staircase(random: &mut Random, n: usize, slots: u32) -> Vec<u32> {
    let half = n / 2;
    let excess = 1 + random.up_to(slots / n as u32);
    let mut demand = cells(n, |i, j| {
        let inside = i + j < half;
        if inside {
            excess + random.up_to(excess)
        } else {
            0
        }
    });
    for t in 0..half {
        let row: u32 = (0..half).map(|j| demand[t * n + j]).sum();
        let column: u32 = (0..half).map(|i| demand[i * n + t]).sum();
        demand[t * n + half + t] = (slots + excess).saturating_sub(row);
        demand[(half + t) * n + t] = (slots + excess).saturating_sub(column);
    }
    demand
}

/// All lines but the last row and column have the same excess. It can be withdrawn from pair (i,i)
/// or from pair (i,i+1), except that the last such row has only column 0: who withdraws from the
/// pairs (i,i) must take back all of it, one after the other.
fn chain(random: &mut Random, n: usize, slots: u32) -> Vec<u32> {
    let first = 1 + random.up_to(slots - 1);
    let excess = 1 + random.up_to(first - 1);
    let second = slots + excess - first;
    if n == 1 {
        return vec![slots + excess];
    }
    let mut demand = vec![0; n * n];
    let mut ask = |i, j, v| demand[i * n + j] = v;
    for i in 0..n - 2 {
        ask(i, i, first);
        ask(i, i + 1, second);
    }
    ask(n - 2, 0, second);
    ask(n - 2, n - 1, first);
    ask(n - 1, n - 2, first);
    demand
}

fn cells(n: usize, mut cell: impl FnMut(usize, usize) -> u32) -> Vec<u32> {
    let pairs = (0..n).flat_map(|i| (0..n).map(move |j| (i, j)));
    pairs.map(|(i, j)| cell(i, j)).collect()
}

/// Twice a pair's even share of a line: drawn uniformly, a line then asks for L on average.
fn share(n: usize, slots: u32) -> u32 {
    2 * slots / n as u32 + 1
}

/// Every choice among these faults, none and all of them included, each in the order given.
pub fn choices(faults: &[u32]) -> impl Iterator<Item = Vec<u32>> {
    (0..1_u32 << faults.len()).map(|bits| {
        let chosen = |&(index, _): &(usize, &u32)| bits >> index & 1 == 1;
        let faults = faults.iter().enumerate().filter(chosen);
        faults.map(|(_, &fault)| fault).collect()
    })
}
