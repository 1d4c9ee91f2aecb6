//! Reads a document line by line, through a buffer whose size does not depend on the document.

use crate::net::find;
use std::io::{self, Read};

pub const MAX_LINE: usize = 16_384;
const LENGTH_LIMIT: u64 = 1 << 32;
const ROOM: usize = 65_536;

pub enum Next {
    /// A line that ended by LF, without it: its places in the buffer.
    Line(usize, usize),
    /// Bytes without LF before the end.
    Last,
    End,
    LineTooLong,
    DocumentTooLong,
}

pub struct Lines<S: Read> {
    source: S,
    buffer: Vec<u8>,
    start: usize,
    end: usize,
    /// How many bytes came before `start`.
    passed: u64,
}

impl<S: Read> Lines<S> {
    pub fn new(source: S) -> Lines<S> {
        Lines { source, buffer: vec![0; ROOM], start: 0, end: 0, passed: 0 }
    }

    pub fn bytes(&self, from: usize, to: usize) -> &[u8] {
        &self.buffer[from..to]
    }

    pub fn next(&mut self) -> io::Result<Next> {
        let mut looked = 0;
        loop {
            let here = &self.buffer[self.start..self.end];
            let length = looked + find(b'\n', &here[looked..]);
            let is_ended = length < here.len();
            // Only so many bytes of a line are looked at for the length of the document.
            let shown = (length + usize::from(is_ended)).min(MAX_LINE + 1);
            if self.passed + shown as u64 >= LENGTH_LIMIT {
                return Ok(Next::DocumentTooLong);
            }
            if length > MAX_LINE {
                return Ok(Next::LineTooLong);
            }
            if is_ended {
                let from = self.start;
                self.start += length + 1;
                self.passed += length as u64 + 1;
                return Ok(Next::Line(from, from + length));
            }
            looked = length;
            if self.start > 0 {
                self.buffer.copy_within(self.start..self.end, 0);
                (self.start, self.end) = (0, self.end - self.start);
            }
            match self.source.read(&mut self.buffer[self.end..])? {
                0 if looked == 0 => return Ok(Next::End),
                0 => return Ok(Next::Last),
                count => self.end += count,
            }
        }
    }
}
