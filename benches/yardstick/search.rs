//! The search for a full feasible prefix of signs, and the tree that shows that there is none.

use crate::net::Net;
use crate::signs::{Kinds, Mask, Signs};
use crate::space::{Named, Part};
use std::mem;
use std::ops::AddAssign;

/// A sign problem: what the last choice of a prefix settles. The signs of the species are those of part B.
pub trait Problem<const W: usize> {
    /// How many choices there are.
    fn length(&self) -> usize;
    /// The coordinates of part A that each level settles.
    fn settled_a(&self) -> Vec<Mask<W>>;
    /// The species, at most one, that each level settles.
    fn settled_b(&self) -> Vec<Mask<1>>;
    fn gained_a(&self, prefix: &[i8], signs: &Kinds<1>) -> Kinds<W>;
    fn gained_b(&self, prefix: &[i8]) -> Kinds<1>;
    fn closed(&self, prefix: &[i8], signs: &Kinds<1>) -> bool;
    /// The signs of the vector by which multipliers of part A exclude others.
    fn dual(&self, net: &Net, list: &[i128]) -> Signs<W>;
}

pub const OPTIONS: [i8; 3] = [0, 1, -1];

/// A node of a tree.
#[derive(Clone, Copy, PartialEq, Eq)]
pub struct Node(u32);

pub enum Is {
    Split,
    Flat,
    CutA(Named),
    CutB(Named),
}

impl Node {
    const SPLIT: Node = Node(0);
    const FLAT: Node = Node(1);

    fn cut((name, is_negated): Named, is_b: bool) -> Node {
        Node(2 + name * 4 + u32::from(is_b) * 2 + u32::from(is_negated))
    }

    pub fn is(self) -> Is {
        match self.0 {
            0 => Is::Split,
            1 => Is::Flat,
            code => {
                let named = ((code - 2) / 4, (code - 2) % 2 == 1);
                if (code - 2) & 2 == 0 { Is::CutA(named) } else { Is::CutB(named) }
            }
        }
    }
}

/// The nodes in preorder, and the multipliers of the cuts of each part.
pub struct Tree {
    pub nodes: Vec<Node>,
    pub lists_a: Vec<Vec<i128>>,
    pub lists_b: Vec<Vec<i128>>,
}

pub enum End {
    /// The pattern, and the columns of a solution of each part.
    Found(Vec<i8>, Vec<i128>, Vec<i128>),
    Refuted(Tree),
    Spent,
}

/// Which part is wide, with an index and a basis of its system.
pub struct WideIn {
    pub is_a: bool,
    pub index: u32,
    pub basis: Vec<u32>,
}

/// What searches did.
#[derive(Clone, Copy, Default)]
pub struct Work {
    /// Prefixes that were looked at.
    pub visits: u64,
    /// Vectors with a given sign at a coordinate, or cuts, that a dictionary was exchanged for.
    pub decisions: u64,
    /// Vectors and cuts that were known.
    pub hits: u64,
    pub exchanges: u64,
}

impl AddAssign for Work {
    fn add_assign(&mut self, more: Work) {
        self.visits += more.visits;
        self.decisions += more.decisions;
        self.hits += more.hits;
        self.exchanges += more.exchanges;
    }
}

pub struct Search<'s, P: Problem<W>, const W: usize, const WEAK: bool = false> {
    pub problem: &'s P,
    pub a: Part<'s, W, WEAK>,
    pub b: Part<'s, 1>,
    /// How many columns the system of each part has.
    pub columns: (usize, usize),
    /// Whether the nodes are kept.
    pub shows: bool,
    visits: u32,
}

/// A prefix, with what its parents still owe.
pub struct Walk {
    pub prefix: Vec<i8>,
    /// For each level the place of the option of its child that was last looked at.
    option: Vec<usize>,
    /// For each level whether some option up to it is not zero.
    is_signed: Vec<bool>,
}

impl Walk {
    pub fn new(length: usize) -> Walk {
        let room = length + 1;
        Walk { prefix: Vec::with_capacity(room), option: vec![0; room], is_signed: vec![false; room] }
    }

    fn push(&mut self) {
        let level = self.prefix.len();
        let option = OPTIONS[self.option[level]];
        self.is_signed[level + 1] = self.is_signed[level] || option != 0;
        self.prefix.push(option);
    }

    /// Goes down to the first child.
    pub fn down(&mut self) {
        self.option[self.prefix.len()] = 0;
        self.push();
    }

    /// Goes to the next prefix that is due, if there is one.
    pub fn next(&mut self) -> Option<()> {
        loop {
            self.prefix.pop()?;
            let level = self.prefix.len();
            self.option[level] += 1;
            // Below zeros minus is left out.
            if self.option[level] < 2 + usize::from(self.is_signed[level]) {
                self.push();
                return Some(());
            }
        }
    }
}

impl<'s, P: Problem<W>, const W: usize, const WEAK: bool> Search<'s, P, W, WEAK> {
    pub fn new(problem: &'s P, a: Part<'s, W, WEAK>, b: Part<'s, 1>, columns: (usize, usize), shows: bool) -> Self {
        Search { problem, a, b, columns, shows, visits: 0 }
    }

    pub fn work(&self) -> Work {
        let mut work = Work { visits: self.visits.into(), ..self.a.work };
        work += self.b.work;
        work
    }

    /// What is at the prefix: a split where it is feasible.
    fn look(&mut self, prefix: &[i8]) -> Result<Node, WideIn> {
        let level = prefix.len();
        let more = self.problem.gained_b(prefix);
        self.b.kinds[level] = if level == 0 { more } else { self.b.kinds[level - 1].and(&more) };
        let signs = self.b.kinds[level];
        if self.problem.closed(prefix, &signs) {
            return Ok(Node::FLAT);
        }
        let (by_a, by_b) = (self.a.changes(level), self.b.changes(level));
        let before = if level == 0 { Kinds::FREE } else { self.a.kinds[level - 1] };
        self.a.kinds[level] = if by_a { before.and(&self.problem.gained_a(prefix, &signs)) } else { before };
        if let Some(cut) = self.b.known_cut(level) {
            return Ok(Node::cut(cut, true));
        }
        if let Some(cut) = self.a.known_cut(level) {
            return Ok(Node::cut(cut, false));
        }
        if by_b && let Some(cut) = self.b.feasible(level).map_err(|wide| wide_in(false, wide))? {
            return Ok(Node::cut(cut, true));
        }
        if by_a && let Some(cut) = self.a.feasible(level).map_err(|wide| wide_in(true, wide))? {
            return Ok(Node::cut(cut, false));
        }
        Ok(Node::SPLIT)
    }

    pub fn run(&mut self, budget: u32) -> Result<End, WideIn> {
        let length = self.problem.length();
        let (mut walk, mut nodes) = (Walk::new(length), Vec::new());
        loop {
            if self.visits == budget {
                return Ok(End::Spent);
            }
            self.visits += 1;
            let node = self.look(&walk.prefix)?;
            if self.shows {
                nodes.push(node);
            }
            if node != Node::SPLIT {
                if walk.next().is_none() {
                    let (lists_a, lists_b) = (mem::take(&mut self.a.lists), mem::take(&mut self.b.lists));
                    return Ok(End::Refuted(Tree { nodes, lists_a, lists_b }));
                }
            } else if walk.prefix.len() == length {
                let a = self.a.solution(length, self.columns.0).map_err(|wide| wide_in(true, wide))?;
                let b = self.b.solution(length, self.columns.1).map_err(|wide| wide_in(false, wide))?;
                return Ok(End::Found(walk.prefix, a, b));
            } else {
                walk.down();
            }
        }
    }
}

fn wide_in(is_a: bool, (index, basis): (u32, Vec<u32>)) -> WideIn {
    WideIn { is_a, index, basis }
}
