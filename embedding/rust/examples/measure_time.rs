//! Time per start, look and handle: the archive and the second implementation, which do the same checks, on the same inputs
//! in one run; the growth over the levels of 48 (43 (42, INNER), 45); and time per receipt (CR 7). Prints tables in Markdown, for
//! `tools/measure`.

#[path = "../tests/common/deep.rs"]
mod deep;
#[path = "../tests/common/touched.rs"]
mod touched;

use nannyjiffy::{calls, list_bytes, MAX_PRICE_LINES, MAX_ROWS, MAX_VALUES, VALUE_WORDS};
use reference::{calls as second, receipt};
use std::hint::black_box;
use std::time::Instant;
use touched::{Touch, LEVELS, SIZES};

/// Each time is the least of so many.
const ROUNDS: usize = 60;
/// Calls at each level in a round.
const REPEATED: usize = 20;

/// The least times of the rounds, in microseconds for each input: of the one call and of the other, by turns.
fn least<T>(inputs: &[T], mut one: impl FnMut(&T), mut other: impl FnMut(&T)) -> [f64; 2] {
    let round = |call: &mut dyn FnMut(&T)| {
        let start = Instant::now();
        inputs.iter().for_each(call);
        start.elapsed().as_nanos() as f64 / 1e3 / inputs.len() as f64
    };
    let mut times = [f64::INFINITY; 2];
    for _ in 0..ROUNDS {
        times = [times[0].min(round(&mut one)), times[1].min(round(&mut other))];
    }
    times
}

/// Start, look and handle by the archive, and by the second implementation. Each takes a copy of the state.
fn times(touches: &[Touch]) -> [[f64; 2]; 3] {
    let (mut value, mut list) = ([0; VALUE_WORDS], [0; list_bytes(MAX_ROWS)]);
    let (mut value_2, mut list_2) = (value, list);
    let start = least(
        touches,
        |t| _ = black_box(calls::start(&t.rows, &mut t.state.clone())),
        |t| _ = black_box(second::start(&t.rows, &mut t.state.clone())),
    );
    let look = least(
        touches,
        |t| _ = black_box(calls::look(&t.rows, &t.state, t.role, &mut value, &mut list)),
        |t| _ = black_box(second::look(&t.rows, &t.state, t.role, &mut value_2, &mut list_2)),
    );
    let handle = least(
        touches,
        |t| _ = black_box(calls::handle(&t.rows, &mut t.state.clone(), &t.event)),
        |t| _ = black_box(second::handle(&t.rows, &mut t.state.clone(), &t.event)),
    );
    [start, look, handle]
}

/// An order of the most values by a price list of so many lines, each code in its turn, from the last on.
fn priced(lines: usize) -> [f64; 2] {
    let prices: Vec<u8> =
        (1..=lines as i64).flat_map(|code| receipt::price_line(code * 1_000_003 % 65_537, code)).collect();
    let code = |value: usize| ((lines - value % lines) as i64 * 1_000_003 % 65_537) as i32;
    let order: Vec<i32> = (0..MAX_VALUES).flat_map(|value| receipt::value(code(value), 9)).collect();
    assert_eq!(receipt::receipt(&prices, &order).number, 0, "{lines} lines");
    least(
        &[(&prices[..], &order[..]); REPEATED],
        |(prices, order)| _ = black_box(calls::receipt(prices, order)),
        |(prices, order)| _ = black_box(receipt::receipt(prices, order)),
    )
}

fn print(name: &str, times: [[f64; 2]; 3]) {
    print!("| {name} |");
    for [own, second] in times {
        print!(" {own:.1} | {second:.1} | {:.2} |", own / second);
    }
    println!();
}

fn print_head(name: &str) {
    let calls = ["start", "look", "handle"].map(|call| format!(" {call}, µs | second, µs | ratio |"));
    println!("| {name} |{}\n|---|{}", calls.concat(), "---:|".repeat(9));
}

/// The growth per level that fits best: the slope of the logarithms of the times from level `from` on.
fn fitted(times: &[f64], from: usize) -> f64 {
    let points: Vec<(f64, f64)> = (from..=times.len()).map(|level| (level as f64, times[level - 1].ln())).collect();
    let count = points.len() as f64;
    let (x, y) = points.iter().fold((0.0, 0.0), |(x, y), point| (x + point.0 / count, y + point.1 / count));
    let slope = points.iter().map(|point| (point.0 - x) * (point.1 - y)).sum::<f64>();
    (slope / points.iter().map(|point| (point.0 - x).powi(2)).sum::<f64>()).exp()
}

fn main() {
    println!("### Time\n");
    print_head("Rows");
    for (size, rows) in SIZES {
        print(&size.to_string(), times(&touched::of_size(&rows)));
    }
    println!("\n### Growth in time\n");
    print_head("Levels");
    let repeated = |count| (0..REPEATED).map(|_| touched::of_levels(count)).collect::<Vec<Touch>>();
    let levels: Vec<[[f64; 2]; 3]> = (1..=LEVELS).map(|count| times(&repeated(count))).collect();
    for (at, &times) in levels.iter().enumerate() {
        print(&(at + 1).to_string(), times);
    }
    println!("\n| Growth per level | start | second | look | second | handle | second |\n|---|{}", "---:|".repeat(6));
    for from in [1, LEVELS / 2] {
        print!("| fitted from level {from} to {LEVELS} |");
        for column in 0..6 {
            let times: Vec<f64> = levels.iter().map(|level| level[column / 2][column % 2]).collect();
            print!(" {:.3} |", fitted(&times, from));
        }
        println!();
    }
    println!(
        "\n### Receipts\n\n| Price lines, {MAX_VALUES} values | receipt, µs | second, µs | ratio |\n|---|{}",
        "---:|".repeat(3)
    );
    for lines in [4, 16, 64, MAX_PRICE_LINES] {
        let [own, second] = priced(lines);
        println!("| {lines} | {own:.1} | {second:.1} | {:.2} |", own / second);
    }
}
