//! Reads a JSON text by the crate serde_json: writes it with indents, its least form, and what there is of each kind of value.
//! The exit code is 1 where the text isn't JSON, and the fault is written.
#![no_std]
#![no_main]

extern crate alloc;

use alloc::collections::BTreeMap;
use serde_json::Value;
use sfi_guest::{println, rest_of_input};

type Counts = BTreeMap<&'static str, usize>;

fn kind_of(value: &Value) -> &'static str {
    match value {
        Value::Null => "null",
        Value::Bool(_) => "bool",
        Value::Number(_) => "number",
        Value::String(_) => "string",
        Value::Array(_) => "array",
        Value::Object(_) => "object",
    }
}

fn count(value: &Value, counts: &mut Counts) {
    *counts.entry(kind_of(value)).or_default() += 1;
    match value {
        Value::Array(values) => values.iter().for_each(|value| count(value, counts)),
        Value::Object(values) => values.values().for_each(|value| count(value, counts)),
        _ => {}
    }
}

fn run() -> i32 {
    let value: Value = match serde_json::from_slice(&rest_of_input()) {
        Ok(value) => value,
        Err(fault) => {
            println!("{fault}");
            return 1;
        }
    };
    let mut counts = Counts::new();
    count(&value, &mut counts);
    println!("{value:#}\n{value}\n{counts:?}");
    0
}

sfi_guest::main!(run);
