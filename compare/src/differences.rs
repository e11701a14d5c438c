//! Differences found in one part of a comparison.

use std::fs;
use std::io;
use std::path::PathBuf;

use crate::tally::lines;

/// Counts differences, and keeps the first in files.
#[derive(Clone, Debug)]
pub struct Differences {
    folder: PathBuf,
    part: &'static str,
    count: usize,
}

/// A text to be kept, and what it is.
pub type Kept<'a> = (&'static str, &'a [u8]);

impl Differences {
    pub fn new(folder: impl Into<PathBuf>, part: &'static str) -> Self {
        Self { folder: folder.into(), part, count: 0 }
    }

    pub fn count(&self) -> usize {
        self.count
    }

    /// Notes that two answers to an input differ.
    pub fn note(&mut self, name: &str, input: &[u8], answers: [Kept; 2]) -> io::Result<()> {
        self.count += 1;
        if self.count > 1 {
            return Ok(());
        }
        println!("first difference, {name}: {}", first(answers));
        fs::create_dir_all(&self.folder)?;
        let [left, right] = answers;
        for (what, text) in [("input", input), left, right] {
            let path = self.folder.join(format!("{}.{what}", self.part));
            fs::write(&path, text)?;
            println!("  {}", path.display());
        }
        Ok(())
    }
}

/// The first answer in which two texts differ.
fn first(answers: [Kept; 2]) -> String {
    let [(left, left_text), (right, right_text)] = answers;
    let pairs = lines(left_text).zip(lines(right_text));
    let same = pairs.take_while(|(left, right)| left == right).count();
    let show = |text| {
        let line = lines(text).nth(same).map(String::from_utf8_lossy);
        line.map_or_else(|| "nothing".to_owned(), |line| line.trim_end().to_owned())
    };
    let (left_line, right_line) = (show(left_text), show(right_text));
    format!("answer {same} is {left_line} ({left}) or {right_line} ({right})")
}
