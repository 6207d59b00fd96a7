//! Compares the proved library with the second implementation, and measures both.
//!
//!     harness compare N [SEED]   N random rows: judge, and go at several settings; stops at the first difference
//!     harness speed              words and exchanges a second of both, best of several

mod compare;
mod speed;

const USE: &str = "harness compare N [SEED]\nharness speed";

fn main() {
    let words: Vec<String> = std::env::args().skip(1).collect();
    let number = |i: usize, default: Option<u64>| match words.get(i) {
        Some(word) => word.parse::<u64>().ok(),
        None => default,
    };
    let good = match words.first().map(String::as_str) {
        Some("compare") if words.len() <= 3 => match (number(1, None), number(2, Some(1))) {
            (Some(count), Some(seed)) => compare::compare(count, seed),
            _ => usage(),
        },
        Some("speed") if words.len() == 1 => {
            speed::speed();
            true
        }
        _ => usage(),
    };
    std::process::exit(if good { 0 } else { 1 });
}

fn usage() -> bool {
    eprintln!("{USE}");
    false
}
