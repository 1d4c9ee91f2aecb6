//! Reads a document record by record: words, fields and the faults of text.

use crate::canonical::Canonical;
use crate::linear::FREE;
use crate::lines::{Lines, Next};
use crate::net::{MAX_REACTIONS, Net};
use crate::trees::Lists;
use std::io::{self, Read};

const WORDS: [&str; 39] = [
    "label",
    "up",
    "depth",
    "from",
    "to",
    "fromdepth",
    "todepth",
    "level",
    "exit",
    "back",
    "base",
    "dual",
    "comb",
    "vec",
    "cut",
    "side",
    "walk",
    "tie",
    "shelves",
    "mu",
    "m",
    "weights",
    "alpha",
    "split",
    "flat",
    "cuta",
    "cutb",
    "end",
    "q1",
    "q2",
    "q3",
    "q4",
    "q5",
    "q6",
    "q7",
    "q8",
    "q9",
    "q10",
    "q11",
];
const MORE_WORDS: [&str; 4] = ["q12", "q13", "q14", "q15"];
const WORDS_OF_VERSION_2: [&str; 5] = ["vectors", "vector", "section", "refa", "refb"];
const MAX_SHARED: u32 = 4_096;
const MAX_NUMBERS: usize = 400;

pub const CODES: [(u32, &str); 23] = [
    (21, "BadHeader"),
    (22, "BadNetwork"),
    (23, "UnknownWord"),
    (24, "BadField"),
    (25, "NumberWide"),
    (26, "WrongOrder"),
    (27, "EndsEarly"),
    (28, "AfterEnd"),
    (29, "DocumentTooLong"),
    (30, "LineTooLong"),
    (31, "WrongClasses"),
    (32, "WrongWalk"),
    (33, "NotIndependent"),
    (34, "NotSpanned"),
    (35, "BadVector"),
    (36, "WrongNumber"),
    (37, "WrongVerdict"),
    (41, "BadLeaf"),
    (42, "NodeNotAllowed"),
    (43, "TreeEndsEarly"),
    (44, "TreeGoesOn"),
    (45, "BadEvidence"),
    (46, "WrongShape"),
];

pub enum Stop {
    /// A code and a line.
    Rejected(u32, u32),
    Failed(io::Error),
}

pub type Checked<T> = Result<T, Stop>;

/// The fields of a record after its word. A field that is wrong stays so.
pub struct Fields<'l> {
    pub rest: &'l [u8],
    pub is_bad: bool,
    pub is_wide: bool,
}

impl Fields<'_> {
    pub fn new(rest: &[u8]) -> Fields<'_> {
        Fields { rest, is_bad: false, is_wide: false }
    }

    /// Takes a word, if it is here.
    pub fn word(&mut self, word: &str) -> bool {
        let rest = self.rest.strip_prefix(b" ").and_then(|rest| rest.strip_prefix(word.as_bytes()));
        match rest {
            Some(rest) if matches!(rest.first(), None | Some(b' ')) => {
                self.rest = rest;
                true
            }
            _ => false,
        }
    }

    /// A number: its value, or some value that is too great, and whether it has a sign.
    fn number(&mut self) -> (u128, bool) {
        let [b' ', rest @ ..] = self.rest else {
            self.is_bad = true;
            return (0, false);
        };
        let (digits, is_negative) = rest.strip_prefix(b"-").map_or((rest, false), |rest| (rest, true));
        let (value, length) = leading_number(digits);
        self.is_bad |= length == 0 || (digits[0] == b'0' && (length > 1 || is_negative));
        self.rest = &digits[length..];
        (value, is_negative)
    }

    /// 1, 0 or -1.
    pub fn sign(&mut self) -> i8 {
        let (number, is_negative) = self.number();
        self.is_bad |= number > 1;
        if is_negative { -1 } else { (number != 0).into() }
    }

    pub fn small(&mut self, least: u32, greatest: u32) -> u32 {
        let (number, is_negative) = self.number();
        self.is_bad |= is_negative || number < u128::from(least) || number > u128::from(greatest);
        if self.is_bad { least } else { number as u32 }
    }

    pub fn smalls(&mut self, count: usize, least: u32, greatest: u32, into: &mut Vec<u32>) {
        into.clear();
        for _ in 0..count {
            let number = self.small(least, greatest);
            into.push(number);
            if self.is_bad {
                into.resize(count, least);
                return;
            }
        }
    }

    pub fn ascending(&mut self, count: usize, least: u32, greatest: u32, into: &mut Vec<u32>) {
        self.smalls(count, least, greatest, into);
        self.is_bad |= into.windows(2).any(|pair| pair[0] >= pair[1]);
    }

    pub fn free(&mut self) -> i128 {
        let (number, is_negative) = self.number();
        self.is_wide |= number >= FREE;
        if is_negative { -(number as i128) } else { number as i128 }
    }

    pub fn frees(&mut self, count: usize, into: &mut Vec<i128>) {
        into.clear();
        while into.len() < count && !self.is_bad {
            let number = self.free();
            into.push(number);
        }
        into.resize(count, 0);
    }
}

/// The number that the digits at the start spell, or some number of 2^72 or more, and how many digits these are.
fn leading_number(bytes: &[u8]) -> (u128, usize) {
    let (mut value, mut length) = (0u64, 0);
    while let Some(digit) = bytes.get(length).map(|byte| byte.wrapping_sub(b'0')).filter(|digit| *digit <= 9) {
        if length == 6 {
            return long_number(bytes);
        }
        value = value * 10 + u64::from(digit);
        length += 1;
    }
    (u128::from(value), length)
}

/// The same, with eight digits at once.
fn long_number(bytes: &[u8]) -> (u128, usize) {
    const ONES: u64 = 0x0101_0101_0101_0101;
    let (mut value, mut length) = (0u128, 0);
    while let Some(Ok(eight)) = bytes.get(length..length + 8).map(<[u8; 8]>::try_from) {
        let eight = u64::from_le_bytes(eight);
        // Each byte is from 0x30 to 0x3f, and still is where 6 is added.
        let more = eight.wrapping_add(6 * ONES);
        if eight & (0xf0 * ONES) | (more & (0xf0 * ONES)) >> 4 != 0x33 * ONES {
            break;
        }
        let pairs = (eight & (0x0f * ONES)).wrapping_mul(10 * 256 + 1) >> 8;
        let fours = (pairs & 0x00ff_00ff_00ff_00ff).wrapping_mul(100 * 65_536 + 1) >> 16;
        let number = (fours & 0x0000_ffff_0000_ffff).wrapping_mul(10_000 * 4_294_967_296 + 1) >> 32;
        value = value * 100_000_000 + u128::from(number);
        length += 8;
        if length > 24 {
            // Too great, whatever follows.
            length += bytes[length..].iter().position(|byte| !byte.is_ascii_digit()).unwrap_or(bytes.len() - length);
            return (u128::MAX >> 2, length);
        }
    }
    let (mut tail, mut scale) = (0u64, 1u64);
    while let Some(digit) = bytes.get(length).map(|byte| byte.wrapping_sub(b'0')).filter(|digit| *digit <= 9) {
        tail = tail * 10 + u64::from(digit);
        scale *= 10;
        length += 1;
    }
    (value * u128::from(scale) + u128::from(tail), length)
}

pub struct Document<S: Read> {
    lines: Lines<S>,
    line: u32,
    pub version: u32,
    /// The first fault of meaning in the block that is read. Its lines pass the tests of text first.
    fault: Option<(u32, u32)>,
    pub shared: Lists,
    /// Whether the line before ended a tree.
    pub after_tree: bool,
}

impl<S: Read> Document<S> {
    pub fn new(source: S) -> Document<S> {
        let (lines, shared) = (Lines::new(source), Lists::default());
        Document { lines, line: 0, version: 0, fault: None, shared, after_tree: false }
    }

    pub fn rejected<T>(&self, code: u32) -> Checked<T> {
        Err(Stop::Rejected(code, self.line))
    }

    pub fn bytes(&self, from: usize, to: usize) -> &[u8] {
        self.lines.bytes(from, to)
    }

    /// The next line, which is due; `early` is the fault where there is none.
    pub fn due(&mut self, early: u32) -> Checked<(usize, usize)> {
        self.line += 1;
        match self.lines.next().map_err(Stop::Failed)? {
            Next::Line(from, to) => Ok((from, to)),
            Next::Last | Next::End => self.rejected(early),
            Next::LineTooLong => self.rejected(30),
            Next::DocumentTooLong => self.rejected(29),
        }
    }

    pub fn is_word(&self, word: &[u8]) -> bool {
        let is = |known: &&str| known.as_bytes() == word;
        WORDS.iter().chain(&MORE_WORDS).any(|known| is(known))
            || self.version == 2 && WORDS_OF_VERSION_2.iter().any(|known| is(known))
    }

    /// Reads a line that begins with this word.
    pub fn record<T>(&mut self, word: &str, read: impl FnOnce(&mut Fields) -> T) -> Checked<T> {
        let (from, to) = self.due(27)?;
        let bytes = self.lines.bytes(from, to);
        let rest = bytes.strip_prefix(word.as_bytes()).filter(|rest| matches!(rest.first(), None | Some(b' ')));
        let Some(rest) = rest else {
            let length = bytes.iter().position(|byte| *byte == b' ').unwrap_or(bytes.len());
            let word = &bytes[..length];
            let goes_on = self.after_tree && self.is_tree_word(word);
            return self.rejected(if goes_on {
                44
            } else if self.is_word(word) {
                26
            } else {
                23
            });
        };
        let mut fields = Fields::new(rest);
        let read = read(&mut fields);
        self.ended(&fields)?;
        self.after_tree = false;
        Ok(read)
    }

    /// The tests of fields that were read to their end.
    pub fn ended(&self, fields: &Fields) -> Checked<()> {
        if fields.is_bad || !fields.rest.is_empty() {
            return self.rejected(24);
        }
        if fields.is_wide { self.rejected(25) } else { Ok(()) }
    }

    fn is_tree_word(&self, word: &[u8]) -> bool {
        matches!(word, b"split" | b"flat" | b"cuta" | b"cutb") || self.version == 2 && matches!(word, b"refa" | b"refb")
    }

    /// Notes a test of meaning of the line that was read last.
    pub fn test(&mut self, code: u32, holds: bool) {
        if !holds && self.fault.is_none() {
            self.fault = Some((code, self.line));
        }
    }

    /// The end of a block, or of a head.
    pub fn tested(&mut self) -> Checked<()> {
        self.fault.take().map_or(Ok(()), |(code, line)| Err(Stop::Rejected(code, line)))
    }

    pub fn head(&mut self) -> Checked<()> {
        let (from, to) = self.due(27)?;
        self.version = match self.lines.bytes(from, to) {
            b"crn certificate 1" => 1,
            b"crn certificate 2" => 2,
            _ => return self.rejected(21),
        };
        Ok(())
    }

    pub fn network(&mut self) -> Checked<Net> {
        let (from, to) = self.due(27)?;
        let digits = self.lines.bytes(from, to).strip_prefix(b"network ");
        let count = digits.filter(|digits| digits.len() < 4 && digits.iter().all(u8::is_ascii_digit));
        let number = |digits: &[u8]| digits.iter().fold(0, |number, digit| number * 10 + usize::from(digit - b'0'));
        let Some(count) = count
            .filter(|digits| digits.first() != Some(&b'0'))
            .map(number)
            .filter(|count| (1..=MAX_REACTIONS).contains(count))
        else {
            return self.rejected(22);
        };
        let mut net = Some(Canonical::new());
        for _ in 0..count {
            let (from, to) = self.due(27)?;
            let line = self.lines.bytes(from, to);
            net = net.and_then(|net| net.with(line));
        }
        net.map_or_else(|| self.rejected(22), |net| Ok(net.finish()))
    }

    pub fn vectors(&mut self) -> Checked<()> {
        let count = self.record("vectors", |fields| fields.small(0, MAX_SHARED))?;
        let mut shared = std::mem::take(&mut self.shared);
        for _ in 0..count {
            let start = shared.numbers.len();
            self.record("vector", |fields| {
                while !fields.is_bad && !fields.rest.is_empty() && shared.numbers.len() - start <= MAX_NUMBERS {
                    let number = fields.free();
                    shared.numbers.push(number);
                }
                fields.is_bad |= !(1..=MAX_NUMBERS).contains(&(shared.numbers.len() - start));
            })?;
            shared.ends.push(shared.numbers.len() as u32);
        }
        self.shared = shared;
        Ok(())
    }

    pub fn section(&mut self, name: &str) -> Checked<()> {
        if self.version == 2 {
            self.record("section", |fields| fields.is_bad |= !fields.word(name))?;
        }
        Ok(())
    }

    pub fn end(&mut self) -> Checked<()> {
        self.record("end", |_| ())?;
        self.line += 1;
        match self.lines.next().map_err(Stop::Failed)? {
            Next::End => Ok(()),
            Next::Line(..) | Next::Last => self.rejected(28),
            Next::LineTooLong => self.rejected(30),
            Next::DocumentTooLong => self.rejected(29),
        }
    }
}
