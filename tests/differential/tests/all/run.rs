//! Running the cases of one kind, each from a seed of its own.

use decoder::generate::Random;
use differential::failure::OnFailure;
use differential::spread::{Floor, Spread};
use std::env;

/// The seed of the first case where the environment names none.
const FIRST: u64 = 20_000_101;

/// What calls in each form have to have given. A run of the usual length must
/// have met every number often enough, and no run any other number; a longer one
/// so many times more often as the usual length goes into its own.
#[derive(Default)]
pub struct Wanted {
    pub plain: &'static [Floor],
    pub embedded: &'static [Floor],
}

/// A number from the environment.
fn number(name: &str) -> Option<u64> {
    let text = env::var(name).ok()?;
    match text.parse() {
        Ok(number) => Some(number),
        Err(error) => panic!("{name}={text}: {error}"),
    }
}

/// Runs cases with the seeds from `SEED` on, `CASES` of them or as many as is
/// usual for this kind, and prints how often each answer came.
pub fn run(kind: &str, usual: u64, wanted: Wanted, mut case: impl FnMut(&mut Random, &mut Spread)) {
    let first = number("SEED").unwrap_or(FIRST);
    let cases = number("CASES").unwrap_or(usual);
    let mut spread = Spread::default();
    for index in 0..cases {
        // Neighbouring seeds give unrelated numbers.
        let seed = first.wrapping_add(index);
        let _told = OnFailure(|| {
            format!("{kind}: this case alone is SEED={seed} CASES=1 with the name of this test")
        });
        case(&mut Random::new(seed), &mut spread);
    }
    print!("{kind}: {cases} cases from seed {first}\n{spread}");
    spread.plain.demand("plain", wanted.plain, cases / usual);
    let embedded = &spread.embedded;
    embedded.demand("embedded", wanted.embedded, cases / usual);
}
