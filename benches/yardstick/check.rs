//! Checks a certificate of either version, line by line.

use crate::answers::{Asked, Gap, QUESTIONS, Verdicts, class_members};
use crate::document::{Checked, Document, Fields};
use crate::graph::Classes;
use crate::linear::Positive;
use crate::net::Net;
use crate::theorems::{One, first_split, one, zero};
use std::io::Read;

/// A system that an open head may name: how many columns it has, and for each class it may name how many rows, or how
/// many it has where it names none.
#[derive(Clone, Copy)]
pub struct System<'r> {
    pub number: u32,
    pub columns: usize,
    pub rows: &'r [usize],
}

/// Why a question may be open.
#[derive(Default)]
pub struct May<'r> {
    pub be_wide: &'r [System<'r>],
    pub be_spent: bool,
    pub rest: Option<u32>,
}

/// Whether labels are numbered by first appearance up to the count.
fn is_numbered(classes: &Classes) -> bool {
    let mut greatest = 0;
    for label in &classes.label {
        if *label > greatest + 1 {
            return false;
        }
        greatest = greatest.max(*label);
    }
    greatest == classes.count
}

/// Whether the first complex of each class has 0 and 0, and each other one hangs on a parent that is higher by one.
fn is_forest(classes: &Classes, up: &[u32], depth: &[u32], parent: impl Fn(usize, usize) -> Option<u32>) -> bool {
    let mut is_met = vec![false; classes.count as usize + 1];
    (0..classes.label.len()).all(|c| {
        if !std::mem::replace(&mut is_met[classes.label[c] as usize], true) {
            return up[c] == 0 && depth[c] == 0;
        }
        up[c] > 0 && parent(up[c] as usize - 1, c).is_some_and(|parent| depth[c] == depth[parent as usize] + 1)
    })
}

pub struct Checker<'d, 'n, S: Read> {
    pub document: &'d mut Document<S>,
    pub net: &'n Net,
    pub verdicts: Verdicts,
    names: Vec<u32>,
    depth: Vec<u32>,
    pub numbers: Vec<i128>,
    /// The pairs of a regular network, and the marks of their sides.
    pub pairs: Vec<u32>,
    pub sides: Vec<Vec<u8>>,
}

impl<'d, 'n, S: Read> Checker<'d, 'n, S> {
    fn new(document: &'d mut Document<S>, net: &'n Net) -> Checker<'d, 'n, S> {
        let (names, depth, numbers, pairs, sides) = (Vec::new(), Vec::new(), Vec::new(), Vec::new(), Vec::new());
        Checker { document, net, verdicts: Verdicts::new(), names, depth, numbers, pairs, sides }
    }

    fn linkage(&mut self) -> Checked<()> {
        let (complexes, reactions) = (self.net.complexes.len(), self.net.reactions.len() as u32);
        let most = complexes as u32;
        let classes = &mut self.verdicts.linkage;
        classes.count = self.document.record("q1", |fields| fields.small(1, most))?;
        let count = classes.count;
        self.document.record("label", |fields| fields.smalls(complexes, 1, count, &mut classes.label))?;
        let label = &classes.label;
        let is_even = self.net.reactions.iter().all(|(y, z)| label[*y as usize] == label[*z as usize]);
        self.document.test(31, is_even && is_numbered(classes));
        self.document.record("up", |fields| fields.smalls(complexes, 0, reactions, &mut self.names))?;
        self.document.record("depth", |fields| fields.smalls(complexes, 0, most - 1, &mut self.depth))?;
        let parent = |r: usize, c: usize| {
            let (y, z) = self.net.reactions[r];
            (c == y as usize || c == z as usize).then_some(y ^ z ^ c as u32)
        };
        self.document.test(31, is_forest(classes, &self.names, &self.depth, parent));
        self.document.tested()
    }

    fn strong(&mut self) -> Checked<()> {
        let (complexes, reactions) = (self.net.complexes.len(), self.net.reactions.len() as u32);
        let most = complexes as u32;
        let (count, terminal) = self.document.record("q2", |fields| {
            let count = fields.small(1, most);
            (count, fields.small(1, count))
        })?;
        let mut classes = Classes { count, label: Vec::new() };
        self.document.record("label", |fields| fields.smalls(complexes, 1, count, &mut classes.label))?;
        self.document.test(31, is_numbered(&classes));
        for (word, depth_word, is_back) in [("from", "fromdepth", false), ("to", "todepth", true)] {
            self.document.record(word, |fields| fields.smalls(complexes, 0, reactions, &mut self.names))?;
            self.document.record(depth_word, |fields| fields.smalls(complexes, 0, most - 1, &mut self.depth))?;
            let parent = |r: usize, c: usize| {
                let (y, z) = self.net.reactions[r];
                let (own, other) = if is_back { (y, z) } else { (z, y) };
                (own as usize == c && classes.label[other as usize] == classes.label[c]).then_some(other)
            };
            self.document.test(31, is_forest(&classes, &self.names, &self.depth, parent));
        }
        let label = &classes.label;
        let ends = |(y, z): &(u32, u32)| (label[*y as usize], label[*z as usize]);
        let mut between = self.net.reactions.iter().map(ends).filter(|(j, k)| j != k);
        self.document.record("level", |fields| fields.smalls(count as usize, 0, most, &mut self.names))?;
        let level = &self.names;
        self.document.test(31, between.clone().all(|(j, k)| level[k as usize - 1] < level[j as usize - 1]));
        let exits = &mut self.verdicts.exits;
        self.document.record("exit", |fields| fields.smalls(count as usize, 0, reactions, exits))?;
        let is_left = between.all(|(j, _)| exits[j as usize - 1] != 0);
        let leaves = exits.iter().enumerate().all(|(k, exit)| {
            *exit == 0 || {
                let (j, other) = ends(&self.net.reactions[*exit as usize - 1]);
                j == k as u32 + 1 && other != j
            }
        });
        self.document.test(31, is_left && leaves);
        self.document.test(36, exits.iter().filter(|exit| **exit == 0).count() as u32 == terminal);
        self.document.tested()?;
        self.verdicts.strong = Some(classes);
        Ok(())
    }

    /// Yes, or no with a reaction.
    fn yes_or_reaction(&mut self, word: &str) -> Checked<Option<u32>> {
        let reactions = self.net.reactions.len() as u32;
        self.document.record(word, |fields| {
            if fields.word("yes") {
                return None;
            }
            fields.is_bad |= !fields.word("no");
            Some(fields.small(1, reactions))
        })
    }

    fn reversible(&mut self) -> Checked<()> {
        let shown = self.yes_or_reaction("q3")?;
        let reactions = &self.net.reactions;
        if let Some(r) = shown {
            let (y, z) = reactions[r as usize - 1];
            self.document.test(37, !reactions.contains(&(z, y)));
        } else {
            let count = reactions.len();
            self.document.record("back", |fields| fields.smalls(count, 1, count as u32, &mut self.names))?;
            let mut pairs = reactions.iter().zip(&self.names);
            let are_reverses = pairs.all(|((y, z), back)| reactions[*back as usize - 1] == (*z, *y));
            self.document.test(32, are_reverses);
        }
        self.verdicts.reversible = Some(shown);
        self.document.tested()
    }

    fn weak(&mut self) -> Checked<()> {
        let shown = self.yes_or_reaction("q4")?;
        let label = &self.verdicts.strong.as_ref().unwrap().label;
        let leaves = |(y, z): &(u32, u32)| label[*y as usize] != label[*z as usize];
        let holds = match shown {
            None => !self.net.reactions.iter().any(leaves),
            Some(r) => leaves(&self.net.reactions[r as usize - 1]),
        };
        self.document.test(37, holds);
        self.verdicts.weak = Some(shown);
        self.document.tested()
    }

    /// What an open head says after its word, where this is open.
    pub fn gap(fields: &mut Fields, may: &May) -> Option<Gap> {
        if !fields.word("open") {
            return None;
        }
        if let Some(question) = may.rest.filter(|_| fields.word("rests")) {
            fields.small(question, question);
            return Some(Gap::Rests(question));
        }
        if may.be_spent && fields.word("budget") {
            return Some(Gap::Budget(fields.small(1, 100_000)));
        }
        fields.is_bad |= !fields.word("wide");
        let number = fields.small(1, 5);
        let system = may.be_wide.iter().find(|system| system.number == number);
        let Some(System { number: system, columns, rows }) = system.copied() else {
            fields.is_bad = true;
            return Some(Gap::Rests(0));
        };
        let (least, greatest) = if system == 3 { (1, rows.len() as u32) } else { (0, 0) };
        let class = fields.small(least, greatest);
        let most = (columns + rows[(class - least) as usize]) as u32;
        let index = fields.small(1, most);
        let mut basis = Vec::new();
        fields.ascending(columns, 1, most, &mut basis);
        Some(Gap::Wide { system, class, index, basis })
    }

    /// The records of a rank over these members, counted from 0.
    fn rank_records(&mut self, members: &[u32], rank: usize, base: &mut Vec<u32>) -> Checked<()> {
        let (species, reactions) = (self.net.species.len(), self.net.reactions.len() as u32);
        let mut is_member = vec![false; reactions as usize];
        members.iter().for_each(|r| is_member[*r as usize] = true);
        self.document.record("base", |fields| {
            fields.ascending(rank, 1, reactions, base);
            fields.is_bad |= base.iter().any(|r| !is_member[*r as usize - 1]);
        })?;
        let sparse =
            |r: u32| self.net.vector(r as usize).enumerate().filter(|(_, entry)| *entry != 0).collect::<Vec<_>>();
        let vectors: Vec<Vec<(usize, i64)>> = base.iter().map(|r| sparse(r - 1)).collect();
        for i in 0..rank {
            self.document.record("dual", |fields| fields.frees(species, &mut self.numbers))?;
            let product = |vector: &Vec<(usize, i64)>| {
                vector.iter().map(|(s, entry)| self.numbers[*s] * i128::from(*entry)).sum::<i128>()
            };
            let holds = vectors.iter().enumerate().all(|(j, vector)| (product(vector) != 0) == (i == j));
            self.document.test(33, holds);
        }
        base.iter().for_each(|r| is_member[*r as usize - 1] = false);
        let mut sums = vec![0i128; species];
        for r in members.iter().filter(|r| is_member[**r as usize]) {
            self.document.record("comb", |fields| fields.frees(rank + 1, &mut self.numbers))?;
            self.net
                .vector(*r as usize)
                .zip(&mut sums)
                .for_each(|(entry, sum)| *sum = self.numbers[0] * i128::from(entry));
            for (number, vector) in self.numbers[1..].iter().zip(&vectors).filter(|(number, _)| **number != 0) {
                vector.iter().for_each(|(s, entry)| sums[*s] -= number * i128::from(*entry));
            }
            let holds = self.numbers[0] > 0 && sums.iter().all(|sum| *sum == 0);
            self.document.test(34, holds);
        }
        Ok(())
    }

    fn rank(&mut self) -> Checked<()> {
        let (species, reactions) = (self.net.species.len(), self.net.reactions.len());
        let rank = self.document.record("q5", |fields| {
            let system = System { number: 1, columns: species, rows: &[reactions] };
            let gap = Self::gap(fields, &May { be_wide: &[system], ..May::default() });
            gap.map_or_else(|| Ok(fields.small(1, species.min(reactions) as u32)), Err)
        })?;
        self.verdicts.rank = Some(match rank {
            Err(gap) => Err(gap),
            Ok(rank) => {
                let members: Vec<u32> = (0..reactions as u32).collect();
                let mut base = Vec::new();
                self.rank_records(&members, rank as usize, &mut base)?;
                Ok(base)
            }
        });
        self.document.tested()
    }

    fn deficiency(&mut self) -> Checked<()> {
        let (species, complexes) = (self.net.species.len(), self.net.complexes.len() as u32);
        let members = class_members(self.net, &self.verdicts.linkage);
        let rows: Vec<usize> = members.iter().map(Vec::len).collect();
        let mut numbers = Vec::new();
        let total = self.document.record("q6", |fields| {
            let system = System { number: 3, columns: species, rows: &rows };
            let gap = Self::gap(fields, &May { be_wide: &[system], rest: Some(5), ..May::default() });
            gap.map_or_else(
                || {
                    let total = fields.small(0, complexes);
                    fields.smalls(rows.len(), 0, complexes, &mut numbers);
                    Ok(total)
                },
                Err,
            )
        })?;
        let total = match total {
            Ok(total) => total,
            Err(gap) => {
                self.verdicts.deficiency = Some(Err(gap));
                return Ok(());
            }
        };
        let Some(Ok(base)) = &self.verdicts.rank else { return self.document.rejected(37) };
        let mut ranks: Vec<i64> = numbers.iter().map(|number| -1 - i64::from(*number)).collect();
        self.verdicts.linkage.label.iter().for_each(|label| ranks[*label as usize - 1] += 1);
        let is_rank = |(rank, rows): (&i64, &usize)| *rank >= 1 && *rank <= species.min(*rows) as i64;
        let holds = total + rows.len() as u32 + base.len() as u32 == complexes && ranks.iter().zip(&rows).all(is_rank);
        self.document.test(36, holds);
        self.document.tested()?;
        let mut base = Vec::new();
        for (members, rank) in members.iter().zip(ranks) {
            self.rank_records(members, rank as usize, &mut base)?;
        }
        self.verdicts.deficiency = Some(Ok((total, numbers)));
        self.document.tested()
    }

    /// The answer to question 7 or 8: a head, and a list of so many numbers.
    fn positive(&mut self, word: &str, system: u32, columns: usize, rows: usize) -> Checked<Result<Positive, Gap>> {
        let may = System { number: system, columns, rows: &[rows] };
        let may = May { be_wide: &[may], ..May::default() };
        let is_yes = self.document.record(word, |fields| match Self::gap(fields, &may) {
            Some(gap) => Err(gap),
            None => {
                let is_yes = fields.word("yes");
                fields.is_bad |= !is_yes && !fields.word("no");
                Ok(is_yes)
            }
        })?;
        let is_yes = match is_yes {
            Ok(is_yes) => is_yes,
            Err(gap) => return Ok(Err(gap)),
        };
        let (word, count) = if is_yes { ("vec", columns) } else { ("cut", rows) };
        self.document.record(word, |fields| fields.frees(count, &mut self.numbers))?;
        // The numbers belong to species, or else to reactions.
        let is_by_species = is_yes == (system == 1);
        let products = if is_by_species {
            let products = self.net.products(&self.numbers);
            self.net.reactions.iter().map(|(y, z)| products[*z as usize] - products[*y as usize]).collect()
        } else {
            self.net.combination(&self.numbers)
        };
        let holds = if is_yes {
            self.numbers.iter().all(|number| *number > 0) && products.iter().all(|product| *product == 0)
        } else {
            products.iter().all(|product| *product <= 0) && products.iter().any(|product| *product < 0)
        };
        self.document.test(35, holds);
        self.document.tested()?;
        let numbers = self.numbers.clone();
        Ok(Ok(if is_yes { Positive::Yes(numbers) } else { Positive::No(numbers) }))
    }

    /// Whether an open head that rests on this question is here.
    pub fn rests(fields: &mut Fields, question: u32) -> bool {
        let is_open = fields.word("open");
        if is_open {
            fields.is_bad |= !fields.word("rests");
            fields.small(question, question);
        }
        is_open
    }

    fn zero(&mut self) -> Checked<()> {
        let complexes = self.net.complexes.len() as u32;
        let said = self.document.record("q9", |fields| {
            if Self::rests(fields, 5) {
                return None;
            }
            let is_yes = fields.word("yes");
            fields.is_bad |= !is_yes && !fields.word("no");
            Some((is_yes, if is_yes { fields.small(0, 1) } else { fields.small(1, complexes) }))
        })?;
        let Some((is_yes, number)) = said else {
            self.verdicts.zero = Some(Err(Gap::Rests(5)));
            return Ok(());
        };
        let Ok(deficiency) = zero(&self.verdicts) else { return self.document.rejected(37) };
        if is_yes {
            let is_weak = self.verdicts.weak == Some(None);
            self.document.test(37, deficiency == 0 && is_weak == (number == 1));
        } else {
            self.document.test(36, deficiency == number);
        }
        self.verdicts.zero = Some(Ok(deficiency));
        self.document.tested()
    }

    fn one(&mut self) -> Checked<()> {
        let (complexes, count) = (self.net.complexes.len() as u32, self.verdicts.linkage.count);
        let said = self.document.record("q10", |fields| {
            if Self::rests(fields, 6) {
                return None;
            }
            if fields.word("yes") {
                return Some(One::Hold);
            }
            fields.is_bad |= !fields.word("no");
            if fields.word("terminal") {
                return Some(One::Terminal(fields.small(1, count), fields.small(2, complexes)));
            }
            if fields.word("class") {
                return Some(One::Class(fields.small(1, count), fields.small(2, complexes)));
            }
            fields.is_bad |= !fields.word("sum");
            Some(One::Sum(fields.small(0, complexes)))
        })?;
        let Some(said) = said else {
            self.verdicts.one = Some(Err(Gap::Rests(6)));
            return Ok(());
        };
        let holds = match (&said, one(&self.verdicts)) {
            (One::Terminal(class, count), _) => first_split(&self.verdicts) == Some((*class, *count)),
            (One::Class(class, number), Ok(One::Class(first, own))) => (*class, *number) == (first, own),
            (One::Sum(sum), Ok(One::Sum(own))) => *sum == own,
            (One::Hold, Ok(One::Hold)) => true,
            _ => false,
        };
        self.document.test(37, holds);
        self.verdicts.one = Some(Ok(said));
        self.document.tested()
    }

    fn question(&mut self, question: u32) -> Checked<()> {
        let (species, reactions) = (self.net.species.len(), self.net.reactions.len());
        match question {
            1 => self.linkage(),
            2 => self.strong(),
            3 => self.reversible(),
            4 => self.weak(),
            5 => self.rank(),
            6 => self.deficiency(),
            7 => self.positive("q7", 2, reactions, species).map(|answer| self.verdicts.dependent = Some(answer)),
            8 => self.positive("q8", 1, species, reactions).map(|answer| self.verdicts.conservative = Some(answer)),
            9 => self.zero(),
            10 => self.one(),
            11 => self.regular(),
            12 => self.confluence(),
            13 => self.signal(),
            _ => self.concordant(question == 15),
        }
    }
}

/// The sections, by the question that begins each.
const SECTIONS: [(u32, &str); 6] =
    [(1, "graph"), (5, "rank"), (7, "dependence"), (9, "theorems"), (11, "confluence"), (14, "concordance")];

/// Reads a document to its end or to its first fault.
pub fn check(source: impl Read, asked: Asked) -> Checked<(Net, Verdicts)> {
    let mut document = Document::new(source);
    document.head()?;
    let net = document.network()?;
    if document.version == 2 {
        document.vectors()?;
    }
    let mut checker = Checker::new(&mut document, &net);
    for question in (1..=QUESTIONS).filter(|question| asked.has(*question)) {
        if let Some((_, name)) = SECTIONS.iter().find(|(first, _)| *first == question) {
            checker.document.section(name)?;
        }
        checker.question(question)?;
    }
    let verdicts = checker.verdicts;
    document.end()?;
    Ok((net, verdicts))
}
