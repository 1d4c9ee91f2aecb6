//! Checks a tree node by node, as its lines are read. Only the prefix of the next node is kept, with its kinds, and the
//! signs of lists that were met before.

use crate::document::{Checked, Document, Fields};
use crate::net::{Net, Quickly};
use crate::search::{Problem, Walk};
use crate::signs::{Kinds, Signs};
use std::collections::HashMap;
use std::io::Read;

/// So many lines are remembered with their signs, and none that is longer.
const MAX_KNOWN: usize = 4_096;
const MAX_KNOWN_LINE: usize = 512;

/// The signs of a list of multipliers as a cut of part A or of part B.
#[derive(Clone, Copy)]
enum Cut<const W: usize> {
    A(Signs<W>),
    B(Signs<1>),
}

pub struct TreeCheck<'p, P: Problem<W>, const W: usize> {
    problem: &'p P,
    net: &'p Net,
    /// How many numbers the lists of each part have.
    counts: (usize, usize),
    walk: Walk,
    kinds_a: Vec<Kinds<W>>,
    kinds_b: Vec<Kinds<1>>,
    is_complete: bool,
    known: HashMap<Box<[u8]>, Cut<W>, Quickly>,
    shared_a: Vec<Option<Signs<W>>>,
    shared_b: Vec<Option<Signs<1>>>,
    numbers: Vec<i128>,
}

impl<'p, P: Problem<W>, const W: usize> TreeCheck<'p, P, W> {
    pub fn new(problem: &'p P, net: &'p Net, rows_a: usize, shared: usize) -> TreeCheck<'p, P, W> {
        let length = problem.length();
        let mut made = TreeCheck {
            problem,
            net,
            counts: (rows_a, net.species.len()),
            walk: Walk::new(length),
            kinds_a: vec![Kinds::FREE; length + 1],
            kinds_b: vec![Kinds::FREE; length + 1],
            is_complete: false,
            known: HashMap::default(),
            shared_a: vec![None; shared],
            shared_b: vec![None; shared],
            numbers: Vec::new(),
        };
        made.enter();
        made
    }

    /// Finds the kinds of the prefix that is due now.
    fn enter(&mut self) {
        let prefix = &self.walk.prefix;
        let level = prefix.len();
        let more = self.problem.gained_b(prefix);
        let (a, b) =
            if level == 0 { (Kinds::FREE, Kinds::FREE) } else { (self.kinds_a[level - 1], self.kinds_b[level - 1]) };
        self.kinds_b[level] = b.and(&more);
        self.kinds_a[level] = a.and(&self.problem.gained_a(prefix, &self.kinds_b[level]));
    }

    fn leaf(&mut self) {
        self.is_complete = self.walk.next().is_none();
        if !self.is_complete {
            self.enter();
        }
    }

    fn split(&mut self) -> Result<(), u32> {
        if self.walk.prefix.len() == self.problem.length() {
            return Err(42);
        }
        self.walk.down();
        self.enter();
        Ok(())
    }

    fn flat(&mut self) -> Result<(), u32> {
        let level = self.walk.prefix.len();
        if !self.problem.closed(&self.walk.prefix, &self.kinds_b[level]) {
            return Err(42);
        }
        self.leaf();
        Ok(())
    }

    fn cut(&mut self, cut: &Cut<W>) -> Result<(), u32> {
        let level = self.walk.prefix.len();
        let is_right = match cut {
            Cut::A(dual) => self.kinds_a[level].are_excluded_by(dual),
            Cut::B(dual) => self.kinds_b[level].are_excluded_by(dual),
        };
        if !is_right {
            return Err(41);
        }
        self.leaf();
        Ok(())
    }

    /// A node that names a shared list.
    fn shared(&mut self, lists: &Lists, is_a: bool, name: u32) -> Result<(), u32> {
        let (list, place) = (lists.get(name), name as usize - 1);
        if list.len() != if is_a { self.counts.0 } else { self.counts.1 } {
            return Err(46);
        }
        let cut = if is_a {
            Cut::A(*self.shared_a[place].get_or_insert_with(|| self.problem.dual(self.net, list)))
        } else {
            Cut::B(*self.shared_b[place].get_or_insert_with(|| dual_b(self.net, list)))
        };
        self.cut(&cut)
    }

    /// Reads a node, and tests it.
    fn node<S: Read>(&mut self, document: &mut Document<S>) -> Checked<()> {
        let (from, to) = document.due(43)?;
        let bytes = document.bytes(from, to);
        let found = match bytes {
            b"split" => self.split(),
            b"flat" => self.flat(),
            _ => match self.known.get(bytes).copied() {
                Some(cut) => self.cut(&cut),
                None => self.new_line(document, from, to)?,
            },
        };
        found.or_else(|code| document.rejected(code))
    }

    fn new_line<S: Read>(&mut self, document: &Document<S>, from: usize, to: usize) -> Checked<Result<(), u32>> {
        let bytes = document.bytes(from, to);
        let length = bytes.iter().position(|byte| *byte == b' ').unwrap_or(bytes.len());
        let (word, rest) = bytes.split_at(length);
        let is_a = matches!(word, b"cuta" | b"refa");
        let mut fields = Fields::new(rest);
        let mut name = None;
        match word {
            b"split" | b"flat" => {}
            b"cuta" | b"cutb" => {
                fields.frees(if is_a { self.counts.0 } else { self.counts.1 }, &mut self.numbers);
            }
            b"refa" | b"refb" if document.version == 2 => {
                name = Some(fields.small(1, document.shared.count()));
            }
            _ => return document.rejected(if document.is_word(word) { 43 } else { 23 }),
        }
        document.ended(&fields)?;
        if let Some(name) = name {
            return Ok(self.shared(&document.shared, is_a, name));
        }
        let list = &self.numbers;
        let cut = if is_a { Cut::A(self.problem.dual(self.net, list)) } else { Cut::B(dual_b(self.net, list)) };
        if self.known.len() < MAX_KNOWN && bytes.len() <= MAX_KNOWN_LINE {
            self.known.insert(bytes.into(), cut);
        }
        Ok(self.cut(&cut))
    }

    /// Reads the whole tree.
    pub fn read<S: Read>(mut self, document: &mut Document<S>) -> Checked<()> {
        while !self.is_complete {
            self.node(document)?;
        }
        document.after_tree = true;
        Ok(())
    }
}

/// The signs of multipliers of species that cancel at each reaction; else none, which exclude nothing.
fn dual_b(net: &Net, list: &[i128]) -> Signs<1> {
    let products = net.products(list);
    let cancel = net.reactions.iter().all(|(y, z)| products[*y as usize] == products[*z as usize]);
    if cancel { Signs::of(list.iter().copied()) } else { Signs::NONE }
}

/// Lists of numbers, one after the other. They count from 1.
#[derive(Default)]
pub struct Lists {
    pub numbers: Vec<i128>,
    pub ends: Vec<u32>,
}

impl Lists {
    pub fn count(&self) -> u32 {
        self.ends.len() as u32
    }

    fn get(&self, name: u32) -> &[i128] {
        let start = if name == 1 { 0 } else { self.ends[name as usize - 2] as usize };
        &self.numbers[start..self.ends[name as usize - 1] as usize]
    }
}
