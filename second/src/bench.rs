//! Times the undo checker.

use std::hint::black_box;
use std::time::{Duration, Instant};

use crate::questions::Question;
use crate::undo;

/// Records judged in one call, and the time of all repeats and of the fastest.
#[derive(Default)]
struct Timing {
    records: usize,
    spent: Duration,
    fastest: Duration,
}

/// A line for each C question and one for all of them.
pub fn bench(questions: &[Question], repeats: u32) -> String {
    let mut report = String::new();
    let mut all = Timing::default();
    let mut asked = 0;
    for question in questions {
        if let Question::Check {
            text,
            assignment,
            derivation,
        } = question
        {
            asked += 1;
            let judged = undo::check(text, assignment, derivation);
            let mut timing = time(text, assignment, derivation, repeats);
            timing.records = judged.records;
            let answer = match judged.answer {
                Ok(accepted) => accepted.to_string(),
                Err(refusal) => refusal.to_string(),
            };
            report += &format!("check {asked}: {answer}: {}\n", timing.line(repeats));
            all.records += timing.records;
            all.spent += timing.spent;
            all.fastest += timing.fastest;
        }
    }
    report + &format!("all {asked} checks: {}\n", all.line(repeats))
}

/// The text is parsed and the workspace prepared inside the timed call.
fn time(text: &[u8], assignment: &[u8], derivation: &[u8], repeats: u32) -> Timing {
    let mut timing = Timing {
        fastest: Duration::MAX,
        ..Timing::default()
    };
    for _ in 0..repeats {
        let start = Instant::now();
        black_box(undo::check(
            black_box(text),
            black_box(assignment),
            black_box(derivation),
        ));
        let spent = start.elapsed();
        timing.spent += spent;
        timing.fastest = timing.fastest.min(spent);
    }
    timing
}

impl Timing {
    fn line(&self, repeats: u32) -> String {
        let total = format!("{} ns for {repeats} repeats", self.spent.as_nanos());
        if self.records == 0 {
            return format!("no records, {total}");
        }
        let for_each = |time: Duration| time.as_nanos() as f64 / self.records as f64;
        format!(
            "{} records, {:.2} ns per record (fastest {:.2}), {total}",
            self.records,
            for_each(self.spent) / f64::from(repeats),
            for_each(self.fastest),
        )
    }
}
