//! Ways to spoil rosters, call lines and sheets.

use crate::plain::sheet::MOST_ROWS;
use crate::random::SplitMix64;
use crate::rows::{Bytes, ELSE, END, IDLE};

/// Bytes that mean something somewhere.
const TELLING: &[u8; 24] = b"000123456789,,-+PSLVRafA";

fn byte(random: &mut SplitMix64) -> u8 {
    if random.chance(85) { random.pick(*TELLING) } else { random.number() as u8 }
}

/// Changes, drops or adds a byte of a text.
pub fn text(text: &mut Vec<u8>, random: &mut SplitMix64) {
    let place = random.below(text.len() + 1);
    match random.below(3) {
        0 => text.insert(place, byte(random)),
        1 if place < text.len() => {
            text.remove(place);
        }
        _ if place < text.len() => text[place] = byte(random),
        _ => text.push(byte(random)),
    }
}

/// Spoils a roster, mostly so that it is refused.
pub fn roster(text: &mut Vec<u8>, random: &mut SplitMix64) {
    match random.below(7) {
        0 | 1 => self::text(text, random),
        2 => repeat_line(text, random),
        3 | 4 => insert_line(text, bad_line(random).into_bytes(), random),
        5 => {
            let length = random.below(text.len() + 1);
            text.truncate(length);
        }
        _ => lengthen(text, random),
    }
}

const TOO_WIDE: [&str; 8] = [
    "2048",
    "2049",
    "4095",
    "65536",
    "18446744073709551615",
    "18446744073709551616",
    "18446744073709551617",
    "100000000000000000000000000000",
];

const TOO_LARGE: [&str; 8] =
    ["16", "64", "255", "256", "272", "4294967296", "18446744073709551616", "18446744073709551617"];

const NOT_OF_THE_FORM: [&str; 7] =
    ["P,00,0\n", "S,0,09\n", "P\n", "S,\n", "P,1\n", "S,1,1,\n", "P,1,-1\n"];

fn bad_line(random: &mut SplitMix64) -> String {
    let letter = random.pick(['P', 'S']);
    match random.below(3) {
        0 => format!("{letter},{},{}\n", random.below(16), random.pick(TOO_WIDE)),
        1 => {
            let label = random.pick(["0", "9", "2048"]);
            format!("{letter},{},{label}\n", random.pick(TOO_LARGE))
        }
        _ => random.pick(NOT_OF_THE_FORM).to_owned(),
    }
}

fn line_starts(text: &[u8]) -> Vec<usize> {
    let ends = text.iter().enumerate().filter(|&(_, &byte)| byte == b'\n');
    [0].into_iter().chain(ends.map(|(end, _)| end + 1)).collect()
}

fn insert_line(text: &mut Vec<u8>, line: Vec<u8>, random: &mut SplitMix64) {
    let starts = line_starts(text);
    let place = starts[random.below(starts.len())];
    text.splice(place..place, line);
}

fn repeat_line(text: &mut Vec<u8>, random: &mut SplitMix64) {
    let lines: Vec<&[u8]> = text.split_inclusive(|&byte| byte == b'\n').collect();
    if let Some(line) = random.among(&lines).map(<[u8]>::to_vec) {
        insert_line(text, line, random);
    }
}

/// Brings a roster's length to about the longest allowed.
fn lengthen(text: &mut Vec<u8>, random: &mut SplitMix64) {
    let length = 4090 + random.below(14);
    let zeros = length.saturating_sub(text.len() + b"P,1,0\n".len());
    text.extend_from_slice(b"P,1");
    text.resize(text.len() + zeros, b'0');
    text.extend_from_slice(b",0\n");
}

/// Spoils a sheet by one row or one byte.
pub fn sheet(rows: &mut Vec<Bytes>, random: &mut SplitMix64) {
    let place = random.below(rows.len() + 1);
    match random.below(12) {
        0 => rows.insert(place, ELSE),
        1 => rows.insert(place, END),
        2 => rows.insert(place, [4 + 2 * (random.below(2) as u8), 0, 0, 0, 0, 0, 0, 0]),
        3 => {
            let length = random.pick([MOST_ROWS - 1, MOST_ROWS, MOST_ROWS, MOST_ROWS + 1]);
            rows.resize(length, IDLE);
        }
        4 if place < rows.len() => {
            rows.remove(place);
        }
        5 if place < rows.len() => rows.swap(place, 0),
        6 if place < rows.len() => rows[place][0] = random.below(11) as u8,
        7 if place < rows.len() => rows[place][1] = random.below(11) as u8,
        _ => {
            if let Some(row) = rows.get_mut(place) {
                let small = random.below(70) as u8;
                row[random.below(8)] =
                    if random.chance(70) { small } else { random.number() as u8 };
            }
        }
    }
}
