//! Times the calls of the Rust crate json-patch 5.0.0 as bench/driver.rt.txt times those here: its
//! arguments are `MODE COUNT END`, its input is `[document,patch]`, and it prints the nanoseconds of
//! one call, each made on a fresh copy whose making isn't counted. The modes are `patch`,
//! `patch_unsafe` and `merge`; of the first two END says whether they are `accepted` or `refused`.
//!
//! It builds with the dependencies json-patch = "=5.0.0" and serde_json = "1".
use json_patch::{Patch, merge, patch, patch_unsafe};
use serde_json::Value;
use std::hint::black_box;
use std::time::{Duration, Instant};

fn timed(count: u32, document: &Value, call: impl Fn(&mut Value)) -> u128 {
    let mut spent = Duration::ZERO;
    for _ in 0..count {
        let mut work = black_box(document.clone());
        let start = Instant::now();
        call(&mut work);
        spent += start.elapsed();
        black_box(&work);
    }
    spent.as_nanos() / u128::from(count)
}

fn main() {
    let words: Vec<String> = std::env::args().collect();
    let count = words[2].parse().unwrap();
    let (document, value): (Value, Value) = serde_json::from_reader(std::io::stdin().lock()).unwrap();
    let accepted = words[3] == "accepted";
    let spent = if words[1] == "merge" {
        timed(count, &document, |work| merge(work, &value))
    } else {
        let changes: Patch = serde_json::from_value(value).unwrap();
        let call = if words[1] == "patch_unsafe" { patch_unsafe } else { patch };
        timed(count, &document, |work| assert_eq!(call(work, &changes).is_ok(), accepted))
    };
    println!("{spent}");
}
