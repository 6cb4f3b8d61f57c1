//! The time of the library's calls beside the original crate's, on the same sets in one process: operators, dry runs, module 7,
//! and what goes by entries. See README.md. Nothing of the gate depends on it.
mod calls;
mod case;
mod clock;
mod jobs;
mod limit;
mod looks;
mod report;
mod sets;
mod table;

use case::Case;
use clock::{Clock, Sweep};
use jobs::ROOMS;
use std::env;
use std::process::ExitCode;

const ROUNDS: usize = 40;
/// Of so many rounds one is followed by a cold one.
const COLD: usize = 4;

fn main() -> ExitCode {
    let mut words = env::args().skip(1);
    let rounds = words.next().map_or(ROUNDS, |word| word.parse().expect("a number of rounds"));
    let asked = words.next().unwrap_or_default();
    let (clock, mut sweep) = (Clock::new(), Sweep::new());
    let sets = [sets::operators, sets::related, sets::restricted, sets::plain, sets::growing];
    let mut groups = sets.map(|cases| cases(&asked));
    groups.iter_mut().flatten().for_each(Case::confirm);
    for round in 0..rounds {
        groups.iter_mut().flatten().for_each(|case| case.measure_warm(&clock));
        if round % COLD == 0 {
            groups.iter_mut().flatten().for_each(|case| case.measure_cold(&clock, &mut sweep));
        }
    }
    println!("ns of processor time per pair or per entry, the fastest of the rounds; rooms {ROOMS:?}");
    println!("ratios to the crate: of the fastest rounds, and the median of the rounds' own");
    println!("{rounds} warm rounds; {} cold ones, behind a sweep of {} MiB", rounds.div_ceil(COLD), sweep.mib());
    let [operators, related, restricted, plain, growing] = &groups;
    report::rooms_tables("Operators and dry runs, per pair", operators);
    report::rooms_tables("Module 7, per pair", related);
    report::rooms_tables("Restriction, per entry", restricted);
    report::plain_table("Negation, checks and bytes, per entry", plain);
    report::growth(growing);
    if report::doubling(plain) { ExitCode::SUCCESS } else { ExitCode::FAILURE }
}
