//! Call lines at their edges.

use super::{Edge, ROSTER};

/// Calls after the common roster, and their answers.
const TABLE: &[(&str, &str, &str)] = &[
    ("lay and view", "L,0,0,7\nV,0,0\n", "0,0,0,0\n0,0,0,7\n"),
    ("lay upward", "L,0,1,7\nV,1,1\n", "0,0,0,0\n0,0,0,7\n"),
    ("lay downward", "L,1,0,7\nV,1,0\n", "12,0,0,0\n0,0,0,0\n"),
    ("view upward", "V,0,1\n", "13,0,0,0\n"),
    ("view downward", "L,0,0,3\nV,1,0\n", "0,0,0,0\n0,0,0,3\n"),
    ("no such person", "L,2,0,1\nV,2,0\nR,2,0,\n", "10,0,0,0\n10,0,0,0\n10,0,0,0\n"),
    ("no such slot", "L,0,2,1\nV,0,2\n", "11,0,0,0\n11,0,0,0\n"),
    ("no person before no slot", "V,2,2\nL,9,9,9\n", "10,0,0,0\n10,0,0,0\n"),
    ("no person before a sheet's fault", "R,2,0,00\n", "10,0,0,0\n"),
    ("the line before the person", "R,2,0,0\nL,2,0,x\n", "14,0,0,0\n14,0,0,0\n"),
    ("persons 15 and 16 not listed", "V,15,0\nV,16,0\n", "10,0,0,0\n10,0,0,0\n"),
    ("slots 63 and 64 not listed", "V,0,63\nV,0,64\n", "11,0,0,0\n11,0,0,0\n"),
    ("person 255 and 256", "V,255,0\nV,256,0\n", "10,0,0,0\n14,0,0,0\n"),
    ("slot 255 and 256", "L,0,255,0\nL,0,256,0\n", "11,0,0,0\n14,0,0,0\n"),
    ("person 2^64", "V,18446744073709551616,0\n", "14,0,0,0\n"),
    ("person 10 times 2^64", "V,184467440737095516160,0\n", "14,0,0,0\n"),
    ("slot of 30 digits", "V,0,100000000000000000000000000000\n", "14,0,0,0\n"),
    ("turns 65535 and 65536", "R,0,65535,\nR,0,65536,\n", "0,0,0,0\n14,0,0,0\n"),
    ("turns 2^64", "R,0,18446744073709551616,\n", "14,0,0,0\n"),
    ("the largest value", "L,0,0,2147483647\nV,0,0\n", "0,0,0,0\n0,0,0,2147483647\n"),
    ("the smallest value", "L,0,0,-2147483648\nV,0,0\n", "0,0,0,0\n0,0,0,-2147483648\n"),
    ("a value too large", "L,0,0,2147483648\nV,0,0\n", "14,0,0,0\n0,0,0,0\n"),
    ("a value too small", "L,0,0,-2147483649\nV,0,0\n", "14,0,0,0\n0,0,0,0\n"),
    ("a value of 2^32 + 1", "L,0,0,4294967297\n", "14,0,0,0\n"),
    ("a value of 2^64 + 1", "L,0,0,18446744073709551617\n", "14,0,0,0\n"),
    ("a value of -2^64 - 1", "L,0,0,-18446744073709551617\n", "14,0,0,0\n"),
    ("a value of 10 times 2^64", "L,0,0,184467440737095516160\n", "14,0,0,0\n"),
    ("a value of 30 digits", "L,0,0,999999999999999999999999999999\n", "14,0,0,0\n"),
    ("a value of minus 30 digits", "L,0,0,-999999999999999999999999999999\n", "14,0,0,0\n"),
    ("minus one", "L,0,0,-1\nV,0,0\n", "0,0,0,0\n0,0,0,-1\n"),
    ("minus zero", "L,0,0,-0\n", "14,0,0,0\n"),
    ("plus one", "L,0,0,+1\n", "14,0,0,0\n"),
    ("a minus alone", "L,0,0,-\n", "14,0,0,0\n"),
    ("two minuses", "L,0,0,--1\n", "14,0,0,0\n"),
    ("leading zeros", "L,0,0,01\nL,0,0,-01\nL,0,0,00\n", "14,0,0,0\n14,0,0,0\n14,0,0,0\n"),
    ("leading zeros of fields", "V,00,0\nV,0,00\nR,0,00,\n", "14,0,0,0\n14,0,0,0\n14,0,0,0\n"),
    ("a minus before other fields", "V,-1,0\nV,0,-1\nR,0,-1,\n", "14,0,0,0\n14,0,0,0\n14,0,0,0\n"),
    ("a minus zero person", "V,-0,0\n", "14,0,0,0\n"),
    ("fields too few", "L,0,0\nV,0\nR,0,0\n", "14,0,0,0\n14,0,0,0\n14,0,0,0\n"),
    ("fields too many", "L,0,0,1,2\nV,0,0,0\nR,0,0,,\n", "14,0,0,0\n14,0,0,0\n14,0,0,0\n"),
    ("empty fields", "L,0,0,\nL,0,,1\nL,,0,1\n", "14,0,0,0\n14,0,0,0\n14,0,0,0\n"),
    (
        "empty fields of others",
        "V,0,\nV,,0\nR,0,,\nR,,0,\n",
        "14,0,0,0\n14,0,0,0\n14,0,0,0\n14,0,0,0\n",
    ),
    ("letters alone", "L\nV\nR\n", "14,0,0,0\n14,0,0,0\n14,0,0,0\n"),
    ("letters and a comma", "L,\nV,\nR,\n", "14,0,0,0\n14,0,0,0\n14,0,0,0\n"),
    ("other letters", "X,0,0\nl,0,0,1\nVV,0,0\n,0,0\n", "14,0,0,0\n14,0,0,0\n14,0,0,0\n14,0,0,0\n"),
    ("spaces", "V, 0,0\nV,0,0 \n V,0,0\n", "14,0,0,0\n14,0,0,0\n14,0,0,0\n"),
    ("a carriage return", "V,0,0\r\n", "14,0,0,0\n"),
    ("a nul", "V,0,0\0\n\0\n", "14,0,0,0\n14,0,0,0\n"),
    ("empty lines", "\n\nV,0,0\n\n", "14,0,0,0\n14,0,0,0\n0,0,0,0\n14,0,0,0\n"),
    (
        "roster lines after calls",
        "V,0,0\nP,2,0\nS,2,0\nV,2,2\n",
        "0,0,0,0\n14,0,0,0\n14,0,0,0\n10,0,0,0\n",
    ),
    ("a faulty line changes nothing", "L,0,0,5\nL,0,0,6x\nV,0,0\n", "0,0,0,0\n14,0,0,0\n0,0,0,5\n"),
    ("a lay without its end", "L,0,0,5\nL,0,0,6", "0,0,0,0\n14,0,0,0\n"),
    ("a view without its end", "V,0,0\nV,0,0", "0,0,0,0\n14,0,0,0\n"),
    ("a run without its end", "R,0,0,", "14,0,0,0\n"),
    ("a byte after the last end", "V,0,0\n,", "0,0,0,0\n14,0,0,0\n"),
    ("upper-case digits", "R,0,0,000000000000000A\nR,0,0,0A\n", "14,0,0,0\n14,0,0,0\n"),
    ("no digit", "R,0,0,000000000000000g\nR,0,0,0x\n", "14,0,0,0\n14,0,0,0\n"),
    ("odd digits", "R,0,0,0\nR,0,0,00000000000000000\n", "14,0,0,0\n14,0,0,0\n"),
    ("a space after the digits", "R,0,0,0000000000000000 \n", "14,0,0,0\n"),
    ("a space in the digits", "R,0,0,00000000 00000000\n", "14,0,0,0\n"),
    ("a comma in the digits", "R,0,0,00000000,00000000\n", "14,0,0,0\n"),
    ("the empty sheet", "R,0,0,\nR,0,7,\nR,1,65535,\n", "0,0,0,0\n0,0,0,0\n0,0,0,0\n"),
];

pub fn all() -> Vec<Edge> {
    TABLE
        .iter()
        .map(|&(name, calls, wanted)| Edge::after_roster(name, calls, wanted))
        .chain(longest_inputs())
        .chain(labels())
        .collect()
}

/// Inputs of the longest length and over it.
fn longest_inputs() -> Vec<Edge> {
    let views = |count: usize| format!("{ROSTER}{}", "V,0,0\n".repeat(count));
    let faulty = |count: usize| "14,0,0,0\n".repeat(count);
    // The roster has 24 bytes, so 65,536 bytes hold 10,918 views and 4 bytes.
    let exact = views(10_918) + "\n\n\n\n";
    let over = exact.clone() + "V";
    let seen = "0,0,0,0\n".repeat(10_918);
    let wanted = seen.clone() + &faulty(4);
    let cut = seen + &faulty(1);
    let no_text = [ROSTER.as_bytes(), b"\xff\n\xc3\x28\n"].concat();
    vec![
        Edge::new("no byte over 65536", exact, wanted.as_str()),
        Edge::new("one byte over 65536", over, wanted.as_str()),
        Edge::new("a line cut at 65536", views(10_919), cut.as_str()),
        Edge::new("far over 65536", views(30_000), cut.as_str()),
        Edge::new("65536 empty lines", "\n".repeat(65_536), faulty(65_536)),
        Edge::new("65537 empty lines", "\n".repeat(65_537), faulty(65_536)),
        Edge::new("65536 bytes without an end", "V".repeat(65_536), faulty(1)),
        Edge::new("bytes that are no text", no_text, faulty(2)),
    ]
}

/// Whether a person of one label may view a slot of another, and lay there.
fn labels() -> impl Iterator<Item = Edge> {
    const PAIRS: [(u16, u16, bool, bool); 12] = [
        (0, 0, true, true),
        (9, 18, false, false),
        (19, 9, true, false),
        (7, 8, false, false),
        (15, 7, true, false),
        (24, 2040, true, true),
        (31, 2047, true, true),
        (16, 24, false, true),
        (24, 32, true, true),
        (1, 3, false, true),
        (25, 2041, true, true),
        (2047, 0, true, false),
    ];
    PAIRS.into_iter().map(|(person, slot, view, lay)| {
        let input = format!("P,3,{person}\nS,4,{slot}\nV,3,4\nL,3,4,5\n");
        let view = if view { "0,0,0,0\n" } else { "13,0,0,0\n" };
        let lay = if lay { "0,0,0,0\n" } else { "12,0,0,0\n" };
        Edge::new(format!("labels {person} and {slot}"), input, format!("{view}{lay}"))
    })
}
