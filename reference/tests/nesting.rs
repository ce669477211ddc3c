//! What encloses a row (01, ground 6): each sheet of the edges about it gets its number, and counts that stop at 17 (CR 9) tell
//! the same as counts that go on, while other narrow counts do not.

mod common;

use common::*;
use reference::limits::{enclosing, ENCLOSING};
use reference::nesting_edges::{edges, inputs, Edge};
use reference::rules::Rules;
use reference::session;
use reference::sheet::{Row, LINES};
use reference::slips::Slip;

fn get(edges: &[Edge], number: i32) -> usize {
    edges.iter().filter(|edge| edge.number == number).count()
}

#[test]
fn each_edge_gets_its_number() {
    let edges = edges();
    for edge in &edges {
        assert_eq!(loads(&Sheet(edge.rows.clone()).text()), edge.number, "{}", edge.name);
    }
    println!("{} edges", edges.len());
    assert_eq!(
        (get(&edges, 0) > 100, get(&edges, 6) > 100, get(&edges, 0) + get(&edges, 6)),
        (true, true, edges.len())
    );
    let named = |name: &str| edges.iter().find(|edge| edge.name == name).map(|edge| (edge.rows.len(), edge.number));
    assert_eq!(named("256 rows, 127 times B of 31"), Some((LINES, 6)));
    assert_eq!(named("256 rows, 127 times A of 47"), Some((LINES, 6)));
    assert_eq!(named("256 rows, 127 times a plain 31"), Some((LINES, 6)));
    assert_eq!(named("16 binders and 16 marks by 46 and 47, with others between").map(|(_, number)| number), Some(0));
    assert_eq!(named("16 binders and 16 marks by 47, binders outside").map(|(_, number)| number), Some(0));
    assert_eq!(named("17 marks within C of 25").map(|(_, number)| number), Some(6));
    assert_eq!(named("40 plain bindings in A").map(|(_, number)| number), Some(0));
}

/// The edges are told apart by their names, are among those that programs are compared on, and catch every slip about what encloses a
/// row alone.
#[test]
fn edges_of_nesting() {
    let inputs = inputs();
    assert_among_edges(&inputs);
    let about_nesting = [
        Slip::Binders17,
        Slip::Binders15,
        Slip::BinderEnclosesA,
        Slip::Marks17,
        Slip::Marks15,
        Slip::PickIsMark,
        Slip::GateIsMark,
    ];
    let screens =
        |rules: Rules| -> Vec<Vec<u8>> { inputs.iter().map(|(_, input)| session::screens(input, rules)).collect() };
    let own = screens(Rules::default());
    for slip in about_nesting {
        let caught = screens(Rules::slipping(slip)).iter().zip(&own).filter(|(one, other)| one != other).count();
        println!("{slip:?}: {caught}");
        assert!(caught > 0, "{slip:?}");
    }
}

/// Whether no count passes 16, where each is held as `held` holds it.
fn small(rows: &[Row], held: fn(usize) -> usize) -> bool {
    enclosing(rows, Slip::None).iter().all(|of| held(of.binders) <= ENCLOSING && held(of.marks) <= ENCLOSING)
}

/// A count that stops at 17 decides each edge as the count itself does. One that stops at 16, or begins anew there or at 17, does not.
#[test]
fn counts_that_stop() {
    let edges = edges();
    let told =
        |held: fn(usize) -> usize| edges.iter().filter(|edge| small(&edge.rows, held) != (edge.number == 0)).count();
    assert_eq!(told(|count| count), 0);
    assert_eq!(told(|count| count.min(ENCLOSING + 1)), 0);
    assert_eq!(told(|count| count.min(ENCLOSING)), edges.iter().filter(|edge| edge.number == 6).count());
    for wraps in [(|count| count % ENCLOSING) as fn(usize) -> usize, |count| count % (ENCLOSING + 1)] {
        assert!(told(wraps) > 0);
    }
}
