//! What a test shows of a case that fails.

use super::case::{Case, Output, GUARD, OUTPUT_GUARD};
use std::fmt::{Display, Write};

/// What the two implementations left, where they differ, and what they were given.
pub fn difference(case: &Case, lent: &Case, second: &Output, proved: &Output) -> String {
    let mut text = format!("the two implementations differ\n{}", inputs(case));
    if case != lent {
        text += &format!("lists read after the call:\n{}", inputs(lent));
    }
    let before = case.before();
    for (name, output) in [("before", &before), ("second", second), ("proved", proved)] {
        writeln!(text, "{name}: {}", stored(output)).unwrap();
    }
    let outputs = [&before, second, proved];
    text += &changed("result", GUARD, outputs.map(|o| o.numbers.as_slice()));
    text += &changed("out", OUTPUT_GUARD, outputs.map(|o| o.bytes.as_slice()));
    text
}

/// The answer and the numbers stored.
fn stored(output: &Output) -> String {
    let Output {
        answer,
        written,
        removed,
        extra,
        has,
        compared,
        length,
        ..
    } = output;
    format!(
        "answer {answer}, written {written}, removed {removed}, extra {extra}, has {has}, \
         compared {compared}, length {length}"
    )
}

/// The places that a call wrote to, counted from the end of the guard.
fn changed<T: Copy + PartialEq + Display>(
    name: &str,
    guard: usize,
    [before, second, proved]: [&[T]; 3],
) -> String {
    let mut text = String::new();
    for (i, &value) in before.iter().enumerate() {
        let (a, b) = (second[i], proved[i]);
        if a != value || b != value {
            let at = i as i64 - guard as i64;
            let mark = if a == b { "" } else { "  <- differs" };
            writeln!(text, "{name}[{at}]: second {a}, proved {b}{mark}").unwrap();
        }
    }
    text
}

/// The arguments that the call takes.
pub fn inputs(case: &Case) -> String {
    let call = case.call;
    let mut text = format!("call: {call:?}\n");
    if call.takes_list() {
        writeln!(text, "list ({} numbers): {:?}", case.list.len(), case.list).unwrap();
        writeln!(text, "result list: {} numbers", case.result_length).unwrap();
    }
    if call.takes_rectangle() {
        writeln!(text, "rectangle: {:?}", case.rectangle).unwrap();
    }
    if call.takes_polygon() {
        let length = case.polygon.len();
        writeln!(text, "polygon ({length} numbers): {:?}", case.polygon).unwrap();
    }
    if call.takes_cell() {
        writeln!(text, "cell: {:?}", case.cell).unwrap();
    }
    if call.writes_bytes() {
        writeln!(text, "output: {} bytes", case.output_length).unwrap();
    }
    text
}
