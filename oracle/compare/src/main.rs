//! Compares the proved archive with the original crate, and with a second reading of document 01 where the crate has no
//! answer; README.md of the folder above says what is run. compare [checks] [operators] [dry] [forms]
//! [quantified] [restricted] [picked]; exit 1 at any difference.
use compare::relations::{self, Part};
use compare::{chains, checks, dry, fault::Fault, forms, operators, ours::Desk, tally::Tally};
use std::process::ExitCode;

fn main() -> ExitCode {
    let fault = Fault::asked();
    let (mut tally, parts) = (Tally::new(fault.any()), std::env::args().skip(1).collect::<Vec<_>>());
    let mut desk = Desk::new(fault);
    let families: [(&str, fn(&mut Desk, &mut Tally)); 7] = [
        ("checks", checked),
        ("operators", operated),
        ("dry", dried),
        ("forms", formed),
        ("quantified", |desk, tally| relations::all(desk, tally, Part::Quantified)),
        ("restricted", |desk, tally| relations::all(desk, tally, Part::Restricted)),
        ("picked", |desk, tally| relations::all(desk, tally, Part::Picked)),
    ];
    for (_, run) in families.into_iter().filter(|(name, _)| parts.is_empty() || parts.iter().any(|part| part == name)) {
        run(&mut desk, &mut tally);
    }
    let agreed = tally.close();
    println!("checks that said yes: ordered, tidy, signing {:?}", desk.yes);
    println!("operators and dry runs that answered 0 to 9: {:?}", desk.numbers);
    println!("calls of module 7 that answered 0 to 10: {:?}", desk.related);
    if agreed { ExitCode::SUCCESS } else { ExitCode::FAILURE }
}

fn checked(desk: &mut Desk, tally: &mut Tally) {
    checks::exhaustive(desk, tally);
    checks::random(desk, tally, 20_000);
    checks::boundaries(desk, tally);
}

fn operated(desk: &mut Desk, tally: &mut Tally) {
    operators::exhaustive(desk, tally);
    operators::tables(desk, tally);
    operators::refusals(desk, tally, 600);
    operators::boundaries(desk, tally);
    operators::random(desk, tally);
    operators::many_pairs(desk, tally, 60);
    chains::random(desk, tally, 4_000);
}

fn dried(desk: &mut Desk, tally: &mut Tally) {
    dry::exhaustive(desk, tally);
    dry::refusals(desk, tally, 600);
    dry::random(desk, tally);
}

fn formed(desk: &mut Desk, tally: &mut Tally) {
    forms::forms(desk, tally, 3_000);
    forms::signing_order(desk, tally, 1_000);
    forms::makers(desk, tally);
    forms::bytes(desk, tally, 1_000);
    forms::tables(tally);
}
