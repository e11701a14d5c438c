//! Rosters at their edges.

use super::Edge;

const TABLE: &[(&str, &str, &str)] = &[
    ("no input", "", ""),
    ("people and slots alone", "P,0,0\nS,0,0\n", ""),
    ("an empty line is a call", "\n", "14,0,0,0\n"),
    ("an empty line after the roster", "P,0,0\n\n", "14,0,0,0\n"),
    ("calls before any roster", "V,0,0\nL,0,0,1\nR,0,0,\n", "10,0,0,0\n10,0,0,0\n10,0,0,0\n"),
    ("a roster cut in its letter", "P", "2,0,1,0\n"),
    ("a roster cut before a number", "S,", "2,0,2,0\n"),
    ("a roster cut in a number", "P,1", "2,0,3,0\n"),
    ("a roster cut before its label", "P,1,", "2,0,4,0\n"),
    ("a roster cut before a line's end", "P,0,0", "2,0,5,0\n"),
    ("a later line cut", "P,0,0\nS", "2,1,1,0\n"),
    ("a later line cut before its end", "P,0,0\nS,10,20", "2,1,7,0\n"),
    ("a call cut after the roster", "P,0,0\nV,0,0", "14,0,0,0\n"),
    ("another byte after the roster", "P,0,0\nX", "14,0,0,0\n"),
    ("a roster line cut after a call", "V,0,0\nP", "10,0,0,0\n14,0,0,0\n"),
    ("a letter alone", "P\n", "2,0,1,0\n"),
    ("a second letter", "PS,0,0\n", "2,0,1,0\n"),
    ("no number", "P,\n", "2,0,2,0\n"),
    ("an empty number", "P,,0\n", "2,0,2,0\n"),
    ("no label", "S,0\n", "2,0,3,0\n"),
    ("an empty label", "S,0,\n", "2,0,4,0\n"),
    ("a leading zero in a number", "P,00,0\n", "2,0,3,0\n"),
    ("a leading zero before a digit", "P,01,0\n", "2,0,3,0\n"),
    ("a leading zero in a label", "P,0,00\n", "2,0,5,0\n"),
    ("a field too many", "P,0,0,0\n", "2,0,5,0\n"),
    ("a comma too many", "P,12,34,\n", "2,0,7,0\n"),
    ("a minus", "P,-1,0\n", "2,0,2,0\n"),
    ("a plus", "S,0,+1\n", "2,0,4,0\n"),
    ("a space before a number", "P, 0,0\n", "2,0,2,0\n"),
    ("a space before the end", "P,0,0 \n", "2,0,5,0\n"),
    ("a carriage return", "P,0,0\r\n", "2,0,5,0\n"),
    ("a letter in a number", "S,1a,0\n", "2,0,3,0\n"),
    ("a nul", "S\0,1,0\n", "2,0,1,0\n"),
    ("a small letter is a call", "p,0,0\n", "14,0,0,0\n"),
    ("a space first is a call", " P,0,0\n", "14,0,0,0\n"),
    ("person 15", "P,15,0\nS,0,0\nV,15,0\n", "0,0,0,0\n"),
    ("person 16", "P,15,0\nP,16,0\n", "3,1,0,0\n"),
    ("slot 63", "P,0,0\nS,63,0\nL,0,63,-5\nV,0,63\n", "0,0,0,0\n0,0,0,-5\n"),
    ("slot 64", "S,63,0\nS,64,0\n", "3,1,0,0\n"),
    ("slot 16 and person 0", "S,16,0\nP,0,0\nV,0,16\n", "0,0,0,0\n"),
    ("person 63", "P,63,0\n", "3,0,0,0\n"),
    ("person 256", "P,256,0\n", "3,0,0,0\n"),
    ("slot 256", "S,256,0\n", "3,0,0,0\n"),
    ("person 2^32", "P,4294967296,0\n", "3,0,0,0\n"),
    ("person 2^64", "P,18446744073709551616,0\n", "3,0,0,0\n"),
    ("slot 2^64 + 1", "S,18446744073709551617,0\n", "3,0,0,0\n"),
    ("person 10 times 2^64", "P,184467440737095516160,0\n", "3,0,0,0\n"),
    ("slot of 30 digits", "S,123456789012345678901234567890,0\n", "3,0,0,0\n"),
    ("a person twice", "P,0,0\nP,0,0\n", "4,1,0,0\n"),
    ("a slot twice", "S,5,0\nP,5,0\nS,5,1\n", "4,2,0,0\n"),
    ("a person and a slot of one number", "P,5,0\nS,5,0\nV,5,5\n", "0,0,0,0\n"),
    ("label 2047", "P,0,2047\nS,0,2047\nL,0,0,1\nV,0,0\n", "0,0,0,0\n0,0,0,1\n"),
    ("label 2048", "P,0,2048\n", "5,0,0,0\n"),
    ("label 2048 of a slot", "P,0,0\nS,0,2048\n", "5,1,0,0\n"),
    ("label 2^64", "S,0,18446744073709551616\n", "5,0,0,0\n"),
    ("label 2^64 + 1", "P,0,18446744073709551617\n", "5,0,0,0\n"),
    ("label 10 times 2^64", "P,0,184467440737095516160\n", "5,0,0,0\n"),
    ("label of 30 digits", "P,0,100000000000000000000000000000\n", "5,0,0,0\n"),
    ("the form before the number", "P,16,x\n", "2,0,5,0\n"),
    ("the number before the label", "P,16,2048\n", "3,0,0,0\n"),
    ("listed before, before the label", "P,0,0\nP,0,2048\n", "4,1,0,0\n"),
    ("the first line at fault decides", "S,0,0\nS,0,0\nP,x\n", "4,1,0,0\n"),
    ("a fault leaves no answers", "P,16,0\nV,0,0\nV,0,0\n", "3,0,0,0\n"),
];

pub fn all() -> Vec<Edge> {
    let table = TABLE.iter().map(|&(name, input, wanted)| Edge::new(name, input, wanted));
    table.chain(lengths()).chain([everything()]).collect()
}

/// Rosters of the longest length and over it.
fn lengths() -> Vec<Edge> {
    let of_form = |length: usize| format!("P,{},0\n", "9".repeat(length - 5));
    let cut = |length: usize| format!("S,{}", "9".repeat(length - 2));
    let calls = "V,0,0\n".repeat(1000);
    vec![
        Edge::new("4096 bytes", of_form(4096), "3,0,0,0\n"),
        Edge::new("4097 bytes", of_form(4097), "1,0,0,0\n"),
        Edge::new("4096 bytes of half a line", cut(4096), "2,0,4096,0\n"),
        Edge::new("4097 bytes of half a line", cut(4097), "1,0,0,0\n"),
        Edge::new("65536 bytes of roster", of_form(65_536), "1,0,0,0\n"),
        Edge::new("over 65536 bytes of roster", of_form(70_000), "1,0,0,0\n"),
        Edge::new("calls do not count", format!("P,0,0\n{calls}"), "11,0,0,0\n".repeat(1000)),
    ]
}

/// Everybody and everything listed, and then one line too many.
fn everything() -> Edge {
    let people = (0..16).map(|person| format!("P,{person},0\n"));
    let slots = (0..64).map(|slot| format!("S,{slot},0\n"));
    let roster: String = people.chain(slots).collect();
    Edge::new("line 80", format!("{roster}S,9,0\n"), "4,80,0,0\n")
}
