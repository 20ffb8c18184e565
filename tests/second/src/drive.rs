//! Works through numbered cases in two threads: the first difference, a time limit, and a
//! report where a call crashes or does not return.

use crate::both::{hex, Differs};
use std::path::PathBuf;
use std::sync::atomic::{AtomicU64, Ordering};
use std::sync::Mutex;
use std::time::{Duration, Instant};

const THREADS: usize = 2;
/// A case that takes longer counts as one on which a call does not return.
const PATIENCE: u64 = 120;
/// Slices up to this size are printed in a report, larger ones are stored in a file.
const PRINTED: usize = 4_096;

/// What the arguments ask for.
pub struct Plan {
    pub program: &'static str,
    /// What a case is called.
    pub case: &'static str,
    pub seed: u64,
    pub cases: u64,
    pub seconds: u64,
    pub first: u64,
    /// FIRST was not given: all that must be seen is asked for.
    pub whole: bool,
}

impl Plan {
    /// Reads [SEED] [CASES] [SECONDS] [FIRST].
    pub fn read(program: &'static str, case: &'static str, cases: u64) -> Plan {
        let argument = |place: usize, otherwise: u64| match std::env::args().nth(place) {
            None => otherwise,
            Some(word) => word.replace('_', "").parse().unwrap_or_else(|_| {
                eprintln!("{} [SEED] [NUMBER] [SECONDS] [FIRST]", program);
                std::process::exit(2)
            }),
        };
        Plan {
            program,
            case,
            seed: argument(1, 1),
            cases: argument(2, cases),
            seconds: argument(3, 600),
            first: argument(4, 0),
            whole: std::env::args().len() <= 4,
        }
    }

    /// How a case is repeated.
    pub fn again(&self, number: u64) -> String {
        format!("again: {} {} 1 60 {}", self.program, self.seed, number)
    }
}

/// Counts that each thread keeps for itself.
pub trait Tally: Send {
    fn new() -> Self;
    fn add(&mut self, other: &Self);
}

pub fn add_each(ours: &mut [u64], theirs: &[u64]) {
    for (ours, theirs) in ours.iter_mut().zip(theirs) {
        *ours += theirs;
    }
}

pub struct Found {
    pub number: u64,
    pub differs: Differs,
}

/// What came out.
pub struct Outcome<T> {
    pub total: T,
    /// The difference with the lowest number.
    pub found: Option<Found>,
    /// The time limit was reached.
    pub late: bool,
    pub elapsed: f64,
}

/// The numbers of the cases under way, for a report when a call does not return.
static CURRENT: [AtomicU64; THREADS] = [const { AtomicU64::new(NO_CASE) }; THREADS];
const NO_CASE: u64 = u64::MAX;

extern "C" {
    fn signal(number: i32, handler: extern "C" fn(i32)) -> usize;
    fn _exit(status: i32) -> !;
}

extern "C" fn ended(number: i32) {
    eprintln!("signal {} at one of the numbers {:?}", number, under_way());
    unsafe { _exit(1) }
}

fn under_way() -> Vec<u64> {
    CURRENT
        .iter()
        .map(|current| current.load(Ordering::Relaxed))
        .filter(|current| *current != NO_CASE)
        .collect()
}

/// Makes crashes and panics end the program with a report.
fn watch_signals() {
    for number in [4, 6, 7, 8, 11] {
        unsafe { signal(number, ended) };
    }
    let hook = std::panic::take_hook();
    std::panic::set_hook(Box::new(move |panic| {
        hook(panic);
        eprintln!("panic at one of the numbers {:?}", under_way());
        std::process::exit(1);
    }));
}

/// Does `one` for each number of the plan; `report` prints a difference.
pub fn drive<T: Tally>(
    plan: &Plan,
    one: impl Fn(u64, &mut T) -> Result<(), Differs> + Sync,
    report: impl Fn(&Found),
) -> Outcome<T> {
    let start = Instant::now();
    watch_signals();
    let next = AtomicU64::new(plan.first);
    // Numbers from here on need not be compared.
    let end = AtomicU64::new(plan.first + plan.cases);
    let found: Mutex<Option<Found>> = Mutex::new(None);
    let total = Mutex::new(T::new());
    let running = AtomicU64::new(THREADS as u64);
    let late = AtomicU64::new(0);
    std::thread::scope(|scope| {
        for current in &CURRENT {
            let (next, end, found, total) = (&next, &end, &found, &total);
            let (running, late, one) = (&running, &late, &one);
            scope.spawn(move || {
                let mut tally = T::new();
                loop {
                    let number = next.fetch_add(1, Ordering::SeqCst);
                    if number >= end.load(Ordering::SeqCst) {
                        break;
                    }
                    if start.elapsed().as_secs() >= plan.seconds {
                        late.store(1, Ordering::SeqCst);
                        break;
                    }
                    current.store(number, Ordering::Relaxed);
                    if let Err(differs) = one(number, &mut tally) {
                        // Numbers below this one are still compared, so that the first
                        // difference does not depend on the threads.
                        end.fetch_min(number, Ordering::SeqCst);
                        let mut found = found.lock().expect("no thread panics with it");
                        if found.as_ref().map_or(true, |found| number < found.number) {
                            *found = Some(Found { number, differs });
                        }
                    }
                }
                current.store(NO_CASE, Ordering::Relaxed);
                total.lock().expect("no thread panics with it").add(&tally);
                running.fetch_sub(1, Ordering::SeqCst);
            });
        }
        watch(&running, &report);
    });
    Outcome {
        total: total.into_inner().expect("no thread panics with it"),
        found: found.into_inner().expect("no thread panics with it"),
        late: late.load(Ordering::SeqCst) == 1,
        elapsed: start.elapsed().as_secs_f64(),
    }
}

/// Waits for the threads; reports a case that takes too long and ends the program.
fn watch(running: &AtomicU64, report: &impl Fn(&Found)) {
    let mut since: Vec<(u64, Instant)> = vec![(NO_CASE, Instant::now()); THREADS];
    while running.load(Ordering::SeqCst) > 0 {
        std::thread::sleep(Duration::from_millis(20));
        for (current, since) in CURRENT.iter().zip(&mut since) {
            let number = current.load(Ordering::Relaxed);
            if number != since.0 {
                *since = (number, Instant::now());
            } else if number != NO_CASE && since.1.elapsed().as_secs() >= PATIENCE {
                let differs = format!("no return within {} s", PATIENCE);
                report(&Found { number, differs });
                std::process::exit(1);
            }
        }
    }
}

/// Prints a slice, or stores it in a file where it is long.
pub fn print_slice(plan: &Plan, number: u64, slice: &[u8]) {
    if slice.len() <= PRINTED {
        for (i, line) in slice.chunks(32).enumerate() {
            println!("  {:6} {}", 32 * i, hex(line));
        }
        return;
    }
    let name = format!("{}-{}-{}.bin", plan.case, plan.seed, number);
    let file: PathBuf = std::env::temp_dir().join(name);
    match std::fs::write(&file, slice) {
        Ok(()) => println!("  the slice is stored in {}", file.display()),
        Err(error) => println!("  the slice could not be stored: {}", error),
    }
}
