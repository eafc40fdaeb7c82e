//! The Rust crate json-patch 5.0.0 as a peer. Each line in is `[document,patch]`, and each line out
//! `ok DOCUMENT`, `refused NUMBER PATH KIND LEFT` with the path as a JSON text and what is left of the
//! document, `unreadable`, or `panicked`. One argument: `patch`, `unsafe` or `merge`.
//!
//! It builds with the dependencies json-patch = "=5.0.0" and serde_json = "1".
use json_patch::{Patch, PatchError, patch, patch_unsafe};
use serde_json::Value;
use std::io::{BufRead, Write};
use std::panic::catch_unwind;

fn refusal(error: &PatchError, document: &Value) -> String {
    let path = Value::String(error.path.as_str().to_string());
    format!("refused {} {path} {:?} {document}", error.operation, error.kind)
}

fn answer(mode: &str, line: &str) -> String {
    let Ok((mut document, value)) = serde_json::from_str::<(Value, Value)>(line) else {
        return "unreadable".into();
    };
    if mode == "merge" {
        json_patch::merge(&mut document, &value);
        return format!("ok {document}");
    }
    let Ok(changes) = serde_json::from_value::<Patch>(value) else {
        return "unreadable".into();
    };
    let call = if mode == "unsafe" { patch_unsafe } else { patch };
    match call(&mut document, &changes) {
        Ok(()) => format!("ok {document}"),
        Err(error) => refusal(&error, &document),
    }
}

fn main() {
    let mode = std::env::args().nth(1).unwrap_or_default();
    std::panic::set_hook(Box::new(|_| {}));
    let mut out = std::io::BufWriter::new(std::io::stdout().lock());
    for line in std::io::stdin().lock().lines() {
        let line = line.unwrap();
        let said = catch_unwind(|| answer(&mode, &line)).unwrap_or_else(|_| "panicked".into());
        writeln!(out, "{said}").unwrap();
    }
}
