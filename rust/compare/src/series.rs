//! Series of random cases, posed one after another.

use crate::case::Case;
use crate::judge::Difference;
use crate::options::Part;
use crate::progress::Progress;
use crate::random::Random;

/// Random cases of one sort: the name that tells their random numbers from those of other series,
/// how many there are, and how one is made.
pub type Series = (&'static str, u64, fn(&mut Random) -> Case);

/// Makes and poses every case of every series, with lines that tell how far it is.
pub fn run(
    part: Part,
    seed: u64,
    all: &[Series],
    mut pose: impl FnMut(&mut Random, Case) -> Result<(), Difference>,
) -> Result<(), Difference> {
    let mut progress = Progress::new(part, all.iter().map(|(_, cases, _)| cases).sum());
    for &(name, cases, make) in all {
        for number in 0..cases {
            let random = &mut Random::for_call(seed, name, number);
            let case = make(random);
            pose(random, case)?;
            progress.advance();
        }
    }
    Ok(())
}
