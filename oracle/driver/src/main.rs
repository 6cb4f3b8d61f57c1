//! One job per line in, one answer per line out.
use std::io::{BufRead, Result, Write};

fn main() -> Result<()> {
    // A panic of the crate is an answer here, not a message.
    std::panic::set_hook(Box::new(|_| ()));
    let mut output = std::io::stdout().lock();
    for line in std::io::stdin().lock().lines() {
        writeln!(output, "{}", oracle::jobs::answer(&line?))?;
    }
    Ok(())
}
