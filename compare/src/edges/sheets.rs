//! Sheets that are refused, and their neighbours that are not.

use super::Edge;
use crate::rows::{self, Bytes, ELSE, END, IDLE};

const IF_0: &str = "0400000000000000";
const IF_1: &str = "0400000100000000";
const WHILE_0: &str = "0600000000000000";
const WHILE_1: &str = "0600000100000000";
const OTHERWISE: &str = "0500000000000000";
const CLOSE: &str = "0700000000000000";
const NOTHING: &str = "0000000000000000";
/// Sets slot 0, and sets slot 1.
const SET_0: &str = "0100000000000005";
const SET_1: &str = "0100010000000005";

/// A name, the runner, the rows in digits and the answer. Slot 0 is at the
/// bottom with person 0, slot 1 above it with person 1.
const TABLE: &[(&str, u8, &[&str], &str)] = &[
    ("one byte", 0, &["00"], "20,0,0,0"),
    ("7 bytes", 0, &["00000000000000"], "20,0,0,0"),
    ("9 bytes", 0, &[NOTHING, "00"], "20,0,0,0"),
    ("the length before a kind", 0, &["0800000000000000", "00"], "20,0,0,0"),
    ("kind 8", 0, &["0800000000000000"], "21,0,0,0"),
    ("kind 255", 0, &[NOTHING, "ff00000000000000"], "21,1,0,0"),
    ("kind 8 with all else wrong", 0, &["08ffffffffffffff"], "21,0,0,0"),
    ("operation 7 of a constant", 0, &["0207000000000000"], "0,0,0,0"),
    ("operation 8 of a constant", 0, &["0208000000000000"], "22,0,1,0"),
    ("operation 255 of slots", 0, &[NOTHING, "03ff000000000000"], "22,1,1,0"),
    ("the operation before a slot", 0, &["0308ffff000000ff"], "22,0,1,0"),
    ("no such target", 0, &["0100020000000000"], "23,0,2,0"),
    ("target 63", 0, &["01003f0000000000"], "23,0,2,0"),
    ("target 64", 0, &["0100400000000000"], "23,0,2,0"),
    ("target 255", 0, &["0100ff0000000000"], "23,0,2,0"),
    ("no such first", 0, &["0200000200000000"], "23,0,3,0"),
    ("first 64 of slots", 0, &["0300004000000000"], "23,0,3,0"),
    ("no such second", 0, &["0300000000000002"], "23,0,7,0"),
    ("second 64", 0, &["0300000000000040"], "23,0,7,0"),
    ("no such target, first or second", 0, &["0300020200000002"], "23,0,2,0"),
    ("no such first or second", 0, &["0300000200000002"], "23,0,3,0"),
    ("no such guard of an if", 0, &["0400000200000000"], "23,0,3,0"),
    ("no such guard of a while", 0, &["0600004000000000"], "23,0,3,0"),
    ("a slot before an unused byte", 0, &["0101020100000000"], "23,0,2,0"),
    ("second before an unused byte", 0, &["0300000001000040"], "23,0,7,0"),
    ("an earlier row before a slot", 0, &[OTHERWISE, "0100020000000000"], "25,0,0,0"),
    ("idle with byte 1", 0, &["0001000000000000"], "24,0,1,0"),
    ("idle with byte 7", 0, &["0000000000000001"], "24,0,7,0"),
    ("idle with bytes 4 and 6", 0, &["0000000001000100"], "24,0,4,0"),
    ("put with byte 1", 0, &["0101000000000000"], "24,0,1,0"),
    ("put with byte 3", 0, &["0100000100000000"], "24,0,3,0"),
    ("two slots with byte 4", 0, &["0300000001000000"], "24,0,4,0"),
    ("two slots with byte 5", 0, &["0300000000010000"], "24,0,5,0"),
    ("two slots with byte 6", 0, &["0300000000000100"], "24,0,6,0"),
    ("if with byte 2", 0, &["0400010000000000"], "24,0,2,0"),
    ("if with byte 4", 0, &["0400000001000000"], "24,0,4,0"),
    ("else with byte 3 out of place", 0, &["0500000100000000"], "24,0,3,0"),
    ("while with byte 1", 0, &["0601000000000000"], "24,0,1,0"),
    ("while with byte 7", 0, &["0600000000000001"], "24,0,7,0"),
    ("end with byte 5 and nothing open", 0, &["0700000000ff0000"], "24,0,5,0"),
    ("else with nothing open", 0, &[NOTHING, OTHERWISE], "25,1,0,0"),
    ("else in a while", 0, &[WHILE_0, OTHERWISE, CLOSE], "25,1,0,0"),
    ("a second else", 0, &[IF_0, OTHERWISE, OTHERWISE, CLOSE], "25,2,0,0"),
    ("else in a while in an if", 0, &[IF_0, WHILE_0, OTHERWISE, CLOSE, CLOSE], "25,2,0,0"),
    ("else after a while in an if", 0, &[IF_0, WHILE_0, CLOSE, OTHERWISE, CLOSE], "0,0,0,0"),
    ("else after its if", 0, &[IF_0, CLOSE, OTHERWISE], "25,2,0,0"),
    ("else in an if in an else", 0, &[IF_0, OTHERWISE, IF_0, OTHERWISE, CLOSE, CLOSE], "0,0,0,0"),
    ("else after an inner else", 0, &[IF_0, IF_0, OTHERWISE, CLOSE, OTHERWISE, CLOSE], "0,0,0,0"),
    ("end with nothing open", 0, &[CLOSE], "26,0,0,0"),
    ("an end too many", 0, &[IF_0, CLOSE, WHILE_0, CLOSE, CLOSE], "26,4,0,0"),
    ("an open if", 0, &[IF_0], "28,0,0,0"),
    ("an open while", 0, &[NOTHING, WHILE_0, NOTHING], "28,1,0,0"),
    ("an open else", 0, &[NOTHING, IF_0, NOTHING, OTHERWISE, NOTHING], "28,1,0,0"),
    ("two open blocks", 0, &[IF_0, WHILE_0, IF_0, CLOSE], "28,1,0,0"),
    ("the outer block open", 0, &[WHILE_0, IF_0, OTHERWISE, CLOSE], "28,0,0,0"),
    ("a late row before judging", 0, &["0200000100000000", "0800000000000000"], "21,1,0,0"),
    ("an open block before judging", 0, &["0200000100000000", IF_0], "28,1,0,0"),
    ("reading upward", 0, &["0200000100000000"], "31,0,0,0"),
    ("reading a second upward", 0, &["0300000000000001"], "31,0,0,0"),
    ("reading itself and upward", 1, &["0300010100000001", "0300000100000000"], "31,1,0,0"),
    ("setting downward", 1, &[SET_0], "31,0,0,0"),
    ("setting downward by a constant", 1, &["0200000000000001"], "31,0,0,0"),
    ("setting downward by slots", 1, &["0300000000000000"], "31,0,0,0"),
    ("setting upward", 0, &[SET_1, "0200010000000007"], "0,0,0,0"),
    ("setting under a guard", 0, &[IF_1, SET_0, CLOSE], "31,1,0,0"),
    ("setting by a constant under a guard", 0, &[IF_1, "0200000000000001", CLOSE], "31,1,0,0"),
    ("setting by slots under a guard", 0, &[IF_1, "0300000000000000", CLOSE], "31,1,0,0"),
    ("setting in the other branch", 0, &[IF_1, OTHERWISE, SET_0, CLOSE], "31,2,0,0"),
    ("setting upward under a guard", 0, &[IF_1, SET_1, OTHERWISE, SET_1, CLOSE], "0,0,0,0"),
    ("setting after a guard", 0, &[IF_1, CLOSE, SET_0], "0,0,0,0"),
    ("setting under a lower guard within", 0, &[IF_1, IF_0, SET_0, CLOSE, CLOSE], "31,2,0,0"),
    ("a while upward", 0, &[WHILE_1, CLOSE], "32,0,0,0"),
    ("a while at one's label", 1, &[WHILE_1, CLOSE], "0,0,0,0"),
    ("a while below one's label", 1, &[WHILE_0, CLOSE], "0,0,0,0"),
    ("a while under a guard", 0, &[IF_1, WHILE_0, CLOSE, CLOSE], "32,1,0,0"),
    ("a while in the other branch", 0, &[IF_1, OTHERWISE, WHILE_0, CLOSE, CLOSE], "32,2,0,0"),
    ("a while before its body", 0, &[WHILE_1, SET_0, CLOSE], "32,0,0,0"),
    ("a set row before a while", 1, &[SET_0, WHILE_0, CLOSE], "31,0,0,0"),
    ("a row never reached", 0, &[IF_0, "0200000100000000", CLOSE], "31,1,0,0"),
    ("a loop never entered", 1, &[WHILE_1, SET_0, CLOSE], "31,1,0,0"),
    ("an idle row judged", 1, &[NOTHING, NOTHING], "0,0,0,0"),
];

pub fn all() -> Vec<Edge> {
    let table = TABLE.iter().map(|&(name, person, rows, answer)| {
        let calls = format!("R,{person},9,{}\n", rows.concat());
        Edge::after_roster(name, &calls, &format!("{answer}\n"))
    });
    table.chain(lengths()).chain(depths()).chain(used_bytes()).collect()
}

fn edge(name: &str, rows: &[Bytes], answer: &str) -> Edge {
    Edge::after_roster(name, &rows::run_line(0, 9, rows), &format!("{answer}\n"))
}

/// Sheets of the longest length and over it.
fn lengths() -> Vec<Edge> {
    let kind_8 = [8, 0, 0, 0, 0, 0, 0, 0];
    let last = |row: Bytes| [vec![IDLE; 255], vec![row]].concat();
    let loop_at_end = [vec![IDLE; 254], vec![rows::while_row(1), END]].concat();
    let too_long = format!("R,0,9,{}00\n", "0".repeat(4096));
    vec![
        edge("255 rows", &[IDLE; 255], "0,0,0,0"),
        edge("256 rows", &[IDLE; 256], "0,0,0,0"),
        edge("257 rows", &[IDLE; 257], "20,0,0,0"),
        edge("257 rows of kind 8", &[kind_8; 257], "20,0,0,0"),
        edge("3000 rows", &[IDLE; 3000], "20,0,0,0"),
        Edge::after_roster("2049 bytes", &too_long, "20,0,0,0\n"),
        edge("kind 8 in row 255", &last(kind_8), "21,255,0,0"),
        edge("an end in row 255", &last(END), "26,255,0,0"),
        edge("an if in row 255", &last(rows::if_row(0)), "28,255,0,0"),
        edge("a while upward in row 254", &loop_at_end, "32,254,0,0"),
        edge("a leak in row 255", &last([2, 0, 0, 1, 0, 0, 0, 0]), "31,255,0,0"),
        edge("byte 7 of row 255", &last([0, 0, 0, 0, 0, 0, 0, 9]), "24,255,7,0"),
    ]
}

/// As many blocks as may be open, and one more.
fn depths() -> Vec<Edge> {
    let nest = |row: Bytes, depth: usize| [vec![row; depth], vec![END; depth]].concat();
    let (choice, repetition) = (rows::if_row(0), rows::while_row(0));
    let reopened = [vec![choice; 16], vec![END], nest(choice, 1), vec![END; 15]].concat();
    let with_else = [vec![choice; 16], vec![ELSE], vec![END; 16]].concat();
    let else_17 = [vec![choice; 16], vec![ELSE, choice]].concat();
    let mixed = [[choice, repetition].repeat(8), vec![repetition]].concat();
    vec![
        edge("16 open ifs", &nest(choice, 16), "0,0,0,0"),
        edge("17 open ifs", &nest(choice, 17), "27,16,0,0"),
        edge("16 open whiles", &nest(repetition, 16), "0,0,0,0"),
        edge("17 open whiles", &nest(repetition, 17), "27,16,0,0"),
        edge("17 open of both", &mixed, "27,16,0,0"),
        edge("16 left open", &[choice; 16], "28,15,0,0"),
        edge("a block reopened at 16", &reopened, "0,0,0,0"),
        edge("an else at 16", &with_else, "0,0,0,0"),
        edge("a seventeenth in an else", &else_17, "27,17,0,0"),
        edge("128 blocks in a row", &nest(choice, 1).repeat(128), "0,0,0,0"),
    ]
}

/// The answers for bytes 1 to 7 of each kind, with the byte at 64. Byte 1 of
/// kinds 2 and 3 is an operation then, and other bytes are slots or constants.
const BYTES: [[&str; 7]; 8] = [
    UNUSED,
    ["24,0,1", "23,0,2", "24,0,3", "0,0,0", "0,0,0", "0,0,0", "0,0,0"],
    ["22,0,1", "23,0,2", "23,0,3", "0,0,0", "0,0,0", "0,0,0", "0,0,0"],
    ["22,0,1", "23,0,2", "23,0,3", "24,0,4", "24,0,5", "24,0,6", "23,0,7"],
    GUARD,
    UNUSED,
    GUARD,
    UNUSED,
];
const UNUSED: [&str; 7] = ["24,0,1", "24,0,2", "24,0,3", "24,0,4", "24,0,5", "24,0,6", "24,0,7"];
const GUARD: [&str; 7] = ["24,0,1", "24,0,2", "23,0,3", "24,0,4", "24,0,5", "24,0,6", "24,0,7"];

/// Each kind with each byte set in turn.
fn used_bytes() -> impl Iterator<Item = Edge> {
    (0..8).flat_map(|kind| {
        (1..8).map(move |byte| {
            let mut row = IDLE;
            row[0] = kind as u8;
            row[byte] = 64;
            let answer = format!("{},0", BYTES[kind][byte - 1]);
            edge(&format!("kind {kind} with byte {byte}"), &[row], &answer)
        })
    })
}
