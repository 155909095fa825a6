//! The plain implementation against the model: the cases of writes, stipples and lines that `compare` gives the engine with the same
//! seed.

use super::{all_reached, writes, Other, FIRST_LINES, FIRST_READS, WRITE_CASES};
use crate::coverage::Coverage;
use crate::fast;
use crate::generate::Maker;
use crate::random::Random;

const SEED: u64 = 1;

const PLAIN: Other = Other {
    reset: |_, held| fast::reset(held),
    write: fast::write,
};

/// Gives the number of writes that were compared.
pub fn check_all() -> Result<u64, String> {
    let mut coverage = Coverage::new();
    for case in (0..WRITE_CASES).chain(FIRST_LINES..FIRST_READS) {
        let mut maker = Maker::new(Random::of_case(SEED, case));
        let outcome = if case < WRITE_CASES {
            writes::case(&PLAIN, &mut maker, &mut coverage, case)
        } else {
            writes::lines(&PLAIN, &mut maker, &mut coverage)
        };
        outcome.map_err(|why| format!("plain implementation, seed {SEED} case {case}: {why}"))?;
    }
    all_reached(&coverage.missing())?;
    Ok(coverage.all_writes())
}
