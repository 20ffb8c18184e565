//! What the tally of histories finds amiss.

use second::drive::Tally as _;
use second::seen::{Call, Tally};

/// What is said where optimise gave this number on a file of version 4, and nothing else was
/// called.
fn said_of(number: u32) -> String {
    let mut tally = Tally::new();
    tally.count_number(Call::Optimise, 4, number);
    tally.other_answers().join("\n")
}

#[test]
fn answers_that_are_not_listed() {
    for number in 0..=11 {
        let line = format!("optimise answers {}, version 4", number);
        assert!(!said_of(number).contains(&line));
        assert!(!said_of(number).contains("NOT TO BE SEEN"));
    }
    for number in [12, 13, 14, 15, 100] {
        let line = format!("NOT TO BE SEEN: optimise answers {}, version 4", number);
        assert!(said_of(number).contains(&line));
    }
}

#[test]
fn listed_answers_that_were_not_seen() {
    assert!(said_of(0).contains("NOT SEEN: optimise answers 11, version 4"));
    assert!(said_of(0).contains("NOT SEEN: optimise answers 0, version 5"));
}
