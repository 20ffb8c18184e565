//! Runs histories of calls on one image slice by the engine and by the second editor.
//!
//! histories [SEED] [HISTORIES] [SECONDS] [FIRST]
//!
//! Runs the histories FIRST (0) to FIRST + HISTORIES (2,500) under SEED (1), for SECONDS
//! (600) at most; each depends on the seed and its number alone. Then the cases at the limits
//! are run (not where FIRST is given). Ends with status 1 at a difference, if a happening was
//! seen too seldom in one of the versions, if a call gave an answer that is not listed for it, or
//! if histories were left over.

use second::drive::{drive, print_slice, Found, Plan, Tally as _};
use second::history::history;
use second::limits::limits;
use second::seen::Tally;
use std::time::Instant;

/// How many of the calls before a difference are printed.
const PRINTED_CALLS: usize = 8;

fn report(plan: &Plan, found: &Found) {
    println!("DIFFERENCE: seed {}, history {}", plan.seed, found.number);
    println!("  {}", found.differs);
    println!("  {}", plan.again(found.number));
    if let Err(ended) = history(plan.seed, found.number, &mut Tally::new()) {
        let before = ended.log.len().saturating_sub(PRINTED_CALLS + 1);
        println!("  call {}; the ones before:", ended.log.len());
        for story in &ended.log[before..ended.log.len().saturating_sub(1)] {
            println!("    {}", story);
        }
        println!("  L {}, the slice before the call:", ended.len);
        print_slice(plan, found.number, &ended.slice);
    }
}

fn main() {
    let plan = Plan::read("histories", "history", 2_500);
    let one = |number, tally: &mut Tally| {
        history(plan.seed, number, tally).map_err(|ended| ended.differs)
    };
    let outcome = drive(&plan, one, |found| report(&plan, found));
    let total = &outcome.total;
    total.print();
    let mut differences = 0;
    let mut wrong = false;
    if let Some(found) = &outcome.found {
        report(&plan, found);
        differences += 1;
    }
    if outcome.late {
        println!("the limit of {} s was reached", plan.seconds);
    }
    if total.all_histories() < plan.cases {
        println!(
            "{} histories wanted, {} run",
            plan.cases,
            total.all_histories()
        );
        wrong = true;
    }
    if plan.whole && differences == 0 {
        wrong |= total.amiss();
        let start = Instant::now();
        match limits() {
            Ok(cases) => println!(
                "{} cases at the limits in {:.1} s",
                cases,
                start.elapsed().as_secs_f64()
            ),
            Err(differs) => {
                println!("DIFFERENCE: at the limits: {}", differs);
                differences += 1;
            }
        }
    }
    println!(
        "{} histories, {} calls compared in {:.1} s, {} differences",
        total.all_histories(),
        total.calls,
        outcome.elapsed,
        differences
    );
    std::process::exit((wrong || differences > 0) as i32);
}
