//! Sheets that run: branches, turns and cuts.

use super::Edge;
use crate::plain::operation::Operation::{Difference, Sum};
use crate::rows::{Bytes, ELSE, END, if_row, put, run_line, while_row, with_constant};

const DONE: &str = "0,0,0,0\n";

pub fn all() -> Vec<Edge> {
    [branches(), inner_branches(), turns(), cuts(), sequences()].concat()
}

/// Counts slot 0 down from a number, and slot 1 up as often.
fn countdown(from: i32) -> Vec<Bytes> {
    vec![
        put(0, from),
        while_row(0),
        with_constant(Sum, 1, 1, 1),
        with_constant(Difference, 0, 0, 1),
        END,
    ]
}

/// Slots 0 and 1, as laid before a run and as seen by person 1 after it.
type Pair = [i32; 2];

fn edge(name: &str, before: Pair, turns: u16, rows: &[Bytes], run: &str, after: Pair) -> Edge {
    let [low, high] = before;
    let lays = format!("L,0,0,{low}\nL,0,1,{high}\n");
    let calls = format!("{lays}{}V,1,0\nV,1,1\n", run_line(0, turns, rows));
    let [low, high] = after;
    let wanted = format!("{DONE}{DONE}{run}\n0,0,0,{low}\n0,0,0,{high}\n");
    Edge::after_roster(name, &calls, &wanted)
}

/// A run without a loop.
fn branch(name: &str, before: Pair, rows: &[Bytes], after: Pair) -> Edge {
    edge(name, before, 0, rows, "0,0,0,0", after)
}

/// A run that is given some turns and takes some of them.
fn turn(name: &str, before: Pair, [given, taken]: [u16; 2], rows: &[Bytes], after: Pair) -> Edge {
    let run = format!("0,0,0,{taken}");
    edge(name, before, given, rows, &run, after)
}

/// A run that is cut.
fn cut(name: &str, turns: u16, rows: &[Bytes]) -> Edge {
    let run = format!("33,0,0,{turns}");
    edge(name, [9, 8], turns, rows, &run, [9, 8])
}

fn branches() -> Vec<Edge> {
    let both = [if_row(0), put(1, 10), ELSE, put(1, 20), END];
    let first = [if_row(0), put(1, 10), END];
    let second = [if_row(0), ELSE, put(1, 20), END];
    let guard = [if_row(0), put(0, 0), put(1, 10), ELSE, put(1, 20), END];
    vec![
        branch("the first branch", [1, 0], &both, [1, 10]),
        branch("the first branch at -1", [-1, 0], &both, [-1, 10]),
        branch("the first branch at the smallest", [i32::MIN, 0], &both, [i32::MIN, 10]),
        branch("the other branch", [0, 0], &both, [0, 20]),
        branch("no other branch", [0, 7], &first, [0, 7]),
        branch("an empty first branch", [1, 7], &second, [1, 7]),
        branch("an empty first branch passed", [0, 7], &second, [0, 20]),
        branch("a guard changed in its branch", [1, 0], &guard, [0, 10]),
    ]
}

fn inner_branches() -> Vec<Edge> {
    let inner = [if_row(1), put(1, 3), ELSE, put(1, 4), END];
    let rows =
        [&[if_row(0)], inner.as_slice(), &[ELSE, put(1, 5), END], &[with_constant(Sum, 1, 1, 100)]]
            .concat();
    vec![
        branch("an if in an if", [1, 1], &rows, [1, 103]),
        branch("an else in an if", [1, 0], &rows, [1, 104]),
        branch("an else past an if", [0, 1], &rows, [0, 105]),
    ]
}

fn turns() -> Vec<Edge> {
    let nothing = [while_row(0), END];
    let once = [while_row(0), put(0, 0), END];
    let long = countdown(65_535);
    let twice = countdown(3).repeat(2);
    vec![
        turn("no turn needed, none given", [0, 4], [0, 0], &nothing, [0, 4]),
        turn("3 turns of 3", [9, 0], [3, 3], &countdown(3), [0, 3]),
        turn("3 turns of 65535", [9, 0], [65_535, 3], &countdown(3), [0, 3]),
        turn("65535 turns of 65535", [0, 0], [65_535, 65_535], &long, [0, 65_535]),
        turn("two loops", [0, 0], [7, 6], &twice, [0, 6]),
        turn("a loop left at once", [1, 0], [1, 1], &once, [0, 0]),
        turn("an if in a loop", [0, 0], [9, 3], &if_in_loop(), [0, 102]),
    ]
}

/// Counts slot 0 down from 3, and adds 100 to slot 1 when it comes to 0.
fn if_in_loop() -> Vec<Bytes> {
    vec![
        put(0, 3),
        while_row(0),
        with_constant(Difference, 0, 0, 1),
        if_row(0),
        with_constant(Sum, 1, 1, 1),
        ELSE,
        with_constant(Sum, 1, 1, 100),
        END,
        END,
    ]
}

fn cuts() -> Vec<Edge> {
    let late = [vec![put(1, 77)], countdown(3)].concat();
    let deep = [vec![while_row(0); 16], vec![END; 16]].concat();
    vec![
        cut("2 turns of 3", 2, &countdown(3)),
        cut("0 turns of 3", 0, &countdown(3)),
        cut("0 turns of 1", 0, &[while_row(0), put(0, 0), END]),
        cut("65535 turns of 65536", 65_535, &countdown(65_536)),
        cut("a loop down from -1", 65_535, &countdown(-1)),
        cut("a set row before a cut", 1, &late),
        cut("a cut in the second loop", 5, &countdown(3).repeat(2)),
        cut("a body that is empty", 5, &[while_row(0), END]),
        cut("16 whiles cut inside", 15, &deep),
    ]
}

/// Runs one after the other, seen by what they leave in slot 1.
fn sequences() -> Vec<Edge> {
    let up = run_line(0, 0, &[with_constant(Sum, 1, 1, 1)]);
    let cut = run_line(0, 2, &countdown(3));
    let refused = run_line(1, 0, &[put(1, 50), put(0, 50)]);
    let edge = |name, runs: [&String; 3], answers: [&str; 4]| {
        let [first, second, third] = runs;
        let calls = format!("{first}{second}{third}V,1,1\n");
        Edge::after_roster(name, &calls, &(answers.join("\n") + "\n"))
    };
    let done = "0,0,0,0";
    vec![
        edge("three runs", [&up, &up, &up], [done, done, done, "0,0,0,3"]),
        edge("a cut between", [&up, &cut, &up], [done, "33,0,0,2", done, "0,0,0,2"]),
        edge("a refusal between", [&up, &refused, &up], [done, "31,1,0,0", done, "0,0,0,2"]),
    ]
}
