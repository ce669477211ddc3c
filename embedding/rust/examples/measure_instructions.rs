//! The calls that `tools/measure` counts the instructions of, under `valgrind --tool=callgrind`: each of start, look and handle
//! once for each touch, by the archive and by the second implementation. Prints how many touches.
//!   measure_instructions rows SIZE, or: measure_instructions levels COUNT

#[path = "../tests/common/deep.rs"]
mod deep;
#[path = "../tests/common/touched.rs"]
mod touched;

use nannyjiffy::{calls, list_bytes, MAX_ROWS, VALUE_WORDS};
use reference::calls as second;
use std::env;
use std::hint::black_box;
use touched::{Touch, SIZES};

// Each has a name for callgrind to collect by, as the exports do.

#[no_mangle]
#[inline(never)]
fn second_start(rows: &[i32], state: &mut [i32]) -> u32 {
    second::start(rows, state).0
}

#[no_mangle]
#[inline(never)]
fn second_look(rows: &[i32], state: &[i32], role: u32, value: &mut [i32], list: &mut [u8]) -> u32 {
    second::look(rows, state, role, value, list).number
}

#[no_mangle]
#[inline(never)]
fn second_handle(rows: &[i32], state: &mut [i32], event: &[u8]) -> u32 {
    second::handle(rows, state, event).0
}

fn main() {
    let words: Vec<String> = env::args().skip(1).collect();
    let touches: Vec<Touch> = match words.iter().map(String::as_str).collect::<Vec<_>>()[..] {
        ["rows", size] => {
            let rows = SIZES.into_iter().find(|(own, _)| own.to_string() == size).expect("a size").1;
            touched::of_size(&rows)
        }
        ["levels", count] => vec![touched::of_levels(count.parse().expect("a number"))],
        _ => panic!("rows SIZE or levels COUNT"),
    };
    let (mut value, mut list) = ([0; VALUE_WORDS], [0; list_bytes(MAX_ROWS)]);
    for Touch { rows, state, role, event } in &touches {
        _ = black_box(calls::start(rows, &mut state.clone()));
        _ = black_box(calls::look(rows, state, *role, &mut value, &mut list));
        _ = black_box(calls::handle(rows, &mut state.clone(), event));
        black_box(second_start(rows, &mut state.clone()));
        black_box(second_look(rows, state, *role, &mut value, &mut list));
        black_box(second_handle(rows, &mut state.clone(), event));
    }
    println!("{}", touches.len());
}
