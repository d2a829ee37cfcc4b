//! How much stack each entry takes at N 64 and L 1,024, and placing by itself.

use compare::measured::{MEASURED, NO_CALL, NODES, SLOTS, Taken};
use second::inputs::Random;

const SEED: u64 = 1;

/// How many demands of each family.
const DEMANDS: usize = 5;

fn main() {
    println!("N {NODES}, L {SLOTS}, seed {SEED}, {DEMANDS} demands of each family");
    println!("bytes of stack that a call took: the least and the most, and the family of the most");
    for call in MEASURED.into_iter().chain([NO_CALL]) {
        let Taken {
            least,
            most,
            family,
        } = call.stack_taken(&mut Random::seeded(SEED), DEMANDS);
        println!("{:<22}{least:>8}{most:>8}  {family}", call.name);
    }
}
