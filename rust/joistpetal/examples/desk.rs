//! A job of the signing desk, after the change-over. Where a line is not as it was over biodivine-lib-bdd 0.6.3, the old one
//! stands before it, behind `was:`. Everything else is unchanged.
//!
//! The job: put the master rules together, narrow them to one model, see that the join stays small, write the file, and
//! compare it with what the box rebuilds for itself.

// was: use biodivine_lib_bdd::{Bdd, BddVariable, BddVariableSet, op_function};
use joistpetal::{Bdd, BddVariable, BddVariableSet, Refusal, op_function};

const TUNER: usize = 0;
const SECOND_TUNER: usize = 1;
const DRIVE: usize = 2;
const DECRYPTION: usize = 3;

// was: fn option(options: &BddVariableSet, index: usize) -> Bdd {
fn option(options: &BddVariableSet, index: usize) -> Result<Bdd, Refusal> {
    options.mk_literal(BddVariable::from_index(index), true)
}

/// The second tuner needs the first, the drive needs both, and decryption needs one of tuner and drive.
// was: fn master_rules(options: &BddVariableSet) -> Bdd {
fn master_rules(options: &BddVariableSet) -> Result<Bdd, Refusal> {
    // was: let tuner = option(options, TUNER);    and so on, without the question marks
    let tuner = option(options, TUNER)?;
    let second = option(options, SECOND_TUNER)?;
    let drive = option(options, DRIVE)?;
    let decryption = option(options, DECRYPTION)?;
    // was: second.imp(&tuner).and(&drive.imp(&second)).and(&decryption.imp(&tuner.or(&drive)))
    second
        .imp(&tuner)?
        .and(&drive.imp(&second)?)?
        .and(&decryption.imp(&tuner.or(&drive)?)?)
}

/// The rules of the model that has no drive, or nothing if they are longer than the box can take.
// was: fn model_rules(options: &BddVariableSet, longest: usize) -> Option<Bdd> {
fn model_rules(options: &BddVariableSet, longest: usize) -> Result<Option<Bdd>, Refusal> {
    // was: let (master, drive) = (master_rules(options), option(options, DRIVE));
    let (master, drive) = (master_rules(options)?, option(options, DRIVE)?);
    // was: let dry = Bdd::check_binary_op(usize::MAX, &master, &drive, op_function::and_not);
    let dry = Bdd::check_binary_op(usize::MAX, &master, &drive, op_function::and_not)?;
    let (can_hold, pairs) = dry.expect("no limit was asked");
    println!("the model can be built: {can_hold}; pairs to look at: {pairs}");
    Bdd::binary_op_with_limit(longest, &master, &drive, op_function::and_not)
}

/// What the box puts together by itself, the other way round and by De Morgan.
// was: fn rebuilt_by_the_box(options: &BddVariableSet) -> Bdd {
fn rebuilt_by_the_box(options: &BddVariableSet) -> Result<Bdd, Refusal> {
    // was: option(options, DRIVE).or(&master_rules(options).not()).not()
    option(options, DRIVE)?
        .or(&master_rules(options)?.not()?)?
        .not()
}

// was: fn main() {
fn main() -> Result<(), Refusal> {
    let options = BddVariableSet::new_anonymous(4);
    // was: let Some(rules) = model_rules(&options, 100) else {
    let Some(rules) = model_rules(&options, 100)? else {
        println!("too long for the box");
        return Ok(());
    };
    // was: let file = rules.to_bytes();
    let file = rules.to_bytes()?;
    println!("{} entries, {} bytes to hash", rules.size(), file.len());
    // was: assert_eq!(rebuilt_by_the_box(&options).to_bytes(), file);
    assert_eq!(rebuilt_by_the_box(&options)?.to_bytes()?, file);
    println!("desk and box have the same bytes");

    after_the_change_over(&options, &file)
}

/// What the desk can ask only now.
fn after_the_change_over(options: &BddVariableSet, file: &[u8]) -> Result<(), Refusal> {
    // Before it signs a file from elsewhere, it asks whether that is the one array of its rules, and mends it if not.
    let (received, tail) = Bdd::from_bytes_and_tail(file)?;
    println!(
        "received: signing order {}, tail of {tail} bytes",
        received.is_signing()
    );
    assert_eq!(received.signing_order()?, received);
    // What would have stopped the program, or sent it round for ever, says its number.
    let mut damaged = file.to_vec();
    damaged[22] = 9;
    let damaged = Bdd::from_bytes(&mut damaged.as_slice())?;
    let refusals = [
        damaged.not(),
        option(options, TUNER)?.and(&damaged),
        option(options, TUNER)?.and(&Bdd::mk_true(5)?),
        option(options, 4),
        Bdd::binary_op(&received, &received, |_, _| None),
    ];
    for refusal in refusals {
        println!("{}", refusal.expect_err("damaged"));
    }
    Ok(())
}
