//! Calls and differences, family by family.
use std::time::Instant;

const SHOWN: u64 = 5;

struct Row {
    family: String,
    calls: u64,
    differences: u64,
    began: Instant,
    seconds: f64,
}

pub struct Tally {
    rows: Vec<Row>,
    /// Stop at the first difference: enough where a fault is tried.
    hasty: bool,
}

impl Tally {
    pub fn new(hasty: bool) -> Tally {
        Tally { rows: Vec::new(), hasty }
    }

    pub fn family(&mut self, family: impl Into<String>) {
        self.end();
        self.rows.push(Row { family: family.into(), calls: 0, differences: 0, began: Instant::now(), seconds: 0.0 });
    }

    fn end(&mut self) {
        if let Some(row) = self.rows.last_mut().filter(|row| row.seconds == 0.0) {
            row.seconds = row.began.elapsed().as_secs_f64();
            eprintln!("{}: {} calls, {} differences, {:.1} s", row.family, row.calls, row.differences, row.seconds);
        }
    }

    /// One call, everything about it looked at.
    pub fn count(&mut self, outcome: Result<(), String>, case: impl Fn() -> String) {
        let row = self.rows.last_mut().unwrap();
        row.calls += 1;
        if let Err(what) = outcome {
            row.differences += 1;
            if row.differences <= SHOWN {
                println!("{}: {what}\n  {}", row.family, case());
            }
            if self.hasty {
                println!("noticed at call {} of this family", self.rows.last().unwrap().calls);
                std::process::exit(1);
            }
        }
    }

    /// The table, and whether there was no difference.
    pub fn close(&mut self) -> bool {
        self.end();
        println!("\n{:<68} {:>12} {:>12}", "family", "calls", "differences");
        for row in &self.rows {
            println!("{:<68} {:>12} {:>12}", row.family, row.calls, row.differences);
        }
        let sum = |part: fn(&Row) -> u64| self.rows.iter().map(part).sum::<u64>();
        println!("{:<68} {:>12} {:>12}", "all", sum(|row| row.calls), sum(|row| row.differences));
        sum(|row| row.differences) == 0
    }
}
