//! Checks the answers to questions 11 to 15.

use crate::answers::Gap;
use crate::check::{Checker, May, System};
use crate::concordance::{Concordance, Pair};
use crate::document::Checked;
use crate::linear::Positive;
use crate::net::gcd_wide;
use crate::regular::{Confluence, Regular, gathered, terminal_pairs};
use crate::search::Problem;
use crate::signals::{Signal, Signals};
use crate::theorems::first_split;
use crate::trees::TreeCheck;
use std::io::Read;

impl<S: Read> Checker<'_, '_, S> {
    pub fn regular(&mut self) -> Checked<()> {
        let (complexes, count) = (self.net.complexes.len() as u32, self.verdicts.linkage.count);
        let reactions = self.net.reactions.len() as u32;
        let said = self.document.record("q11", |fields| {
            if Self::rests(fields, 7) {
                return None;
            }
            if fields.word("yes") {
                return Some(Regular::Yes);
            }
            fields.is_bad |= !fields.word("no");
            if fields.word("terminal") {
                return Some(Regular::Terminal(fields.small(1, count), fields.small(2, complexes)));
            }
            if fields.word("cycle") {
                return Some(Regular::Cycle(fields.small(1, reactions), Vec::new()));
            }
            fields.is_bad |= !fields.word("dependence");
            Some(Regular::Dependence)
        })?;
        let Some(mut said) = said else {
            self.verdicts.regular = Some(Err(Gap::Rests(7)));
            return Ok(());
        };
        let split = first_split(&self.verdicts);
        let dependent = match &self.verdicts.dependent {
            Some(Ok(positive)) => Some(matches!(positive, Positive::Yes(_))),
            _ => None,
        };
        let holds = match &said {
            Regular::Terminal(class, count) => split == Some((*class, *count)),
            Regular::Yes => split.is_none() && dependent == Some(true),
            Regular::Dependence => split.is_none() && dependent == Some(false),
            Regular::Cycle(r, _) => split.is_none() && dependent != Some(false) && self.is_within_terminal(*r),
        };
        self.document.test(37, holds);
        self.document.tested()?;
        match &mut said {
            Regular::Yes => self.sides()?,
            Regular::Cycle(r, walk) => self.walk(*r, walk)?,
            _ => {}
        }
        self.verdicts.regular = Some(Ok(said));
        self.document.tested()
    }

    fn is_within_terminal(&self, r: u32) -> bool {
        let (y, z) = self.net.reactions[r as usize - 1];
        let label = &self.verdicts.strong.as_ref().unwrap().label;
        let class = label[y as usize];
        class == label[z as usize] && self.verdicts.exits[class as usize - 1] == 0
    }

    fn walk(&mut self, r: u32, walk: &mut Vec<u32>) -> Checked<()> {
        let complexes = self.net.complexes.len();
        self.document.record("walk", |fields| {
            while !fields.is_bad && !fields.rest.is_empty() && walk.len() <= complexes {
                let c = fields.small(1, complexes as u32);
                walk.push(c);
            }
            fields.is_bad |= !(2..=complexes).contains(&walk.len());
        })?;
        let (y, z) = self.net.reactions[r as usize - 1];
        let is_step = |step: &[u32]| {
            let (a, b) = (step[0] - 1, step[1] - 1);
            let is_link = self.net.reactions.contains(&(a, b)) || self.net.reactions.contains(&(b, a));
            is_link && (a, b) != (y, z) && (a, b) != (z, y)
        };
        let is_from_to = walk[0] == y + 1 && walk[walk.len() - 1] == z + 1;
        self.document.test(32, is_from_to && walk.windows(2).all(is_step));
        Ok(())
    }

    fn sides(&mut self) -> Checked<()> {
        let (net, complexes) = (self.net, self.net.complexes.len());
        self.pairs = terminal_pairs(net, &self.verdicts);
        let label = &self.verdicts.linkage.label;
        for r in &self.pairs {
            let mut marks = Vec::with_capacity(complexes);
            self.document.record("side", |fields| {
                fields.small(r + 1, r + 1);
                while marks.len() < complexes && !fields.is_bad {
                    let mark = fields.small(0, 1);
                    marks.push(mark as u8);
                }
                marks.resize(complexes, 0);
            })?;
            let (y, z) = net.reactions[*r as usize];
            let mark = |c: u32| marks[c as usize];
            let is_same = |(a, b): &(u32, u32)| mark(*a) == mark(*b) || (*a, *b) == (y, z) || (*b, *a) == (y, z);
            let is_own = |(mark, k): (&u8, &u32)| *mark == 0 || *k == label[y as usize];
            let holds = (mark(y), mark(z)) == (0, 1) && marks.iter().zip(label).all(is_own);
            self.document.test(35, holds && net.reactions.iter().all(is_same));
            self.sides.push(marks);
        }
        Ok(())
    }

    /// The head of question 12: whether the vector has ties, and the complexes of a plane.
    fn confluence_head(&mut self) -> Checked<Result<Confluence, Gap>> {
        let (complexes, rows) = (self.net.complexes.len(), self.rows_of_confluence());
        self.document.record("q12", |fields| {
            let system = System { number: 4, columns: complexes, rows: &[rows] };
            if let Some(gap) = Self::gap(fields, &May { be_wide: &[system], rest: Some(11), ..May::default() }) {
                return Err(gap);
            }
            if fields.word("yes") {
                return Ok(Confluence::Vector(Vec::new()));
            }
            fields.is_bad |= !fields.word("none");
            if fields.word("regular") {
                return Ok(Confluence::NotRegular);
            }
            if fields.word("plane") {
                let places = [fields.small(1, complexes as u32), fields.small(1, complexes as u32)];
                fields.is_bad |= places[0] == places[1];
                return Ok(Confluence::Plane(places, [Vec::new(), Vec::new()]));
            }
            fields.is_bad |= !fields.word("zero");
            Ok(Confluence::OnlyZero)
        })
    }

    fn rows_of_confluence(&self) -> usize {
        self.net.species.len() + self.verdicts.linkage.count as usize
    }

    pub fn confluence(&mut self) -> Checked<()> {
        let mut said = match self.confluence_head()? {
            Ok(said) => said,
            Err(gap) => {
                self.verdicts.confluence = Some(Err(gap));
                return Ok(());
            }
        };
        let is_regular = match &self.verdicts.regular {
            Some(Ok(regular)) => Some(matches!(regular, Regular::Yes)),
            _ => None,
        };
        self.document.test(37, is_regular == Some(!matches!(said, Confluence::NotRegular)));
        self.document.tested()?;
        match &mut said {
            Confluence::NotRegular => {}
            Confluence::OnlyZero => self.ties(None)?,
            Confluence::Vector(vector) => {
                *vector = self.vector_of_confluence()?;
                let is_normal = self.is_in_space(vector) && self.is_normal(vector);
                self.document.test(35, is_normal);
                self.ties(Some(vector.iter().position(|x| *x != 0).unwrap_or(0)))?;
            }
            Confluence::Plane(places, vectors) => {
                for (i, vector) in vectors.iter_mut().enumerate() {
                    *vector = self.vector_of_confluence()?;
                    let (own, other) = (places[i] as usize - 1, places[1 - i] as usize - 1);
                    let holds = self.is_in_space(vector) && vector[own] != 0 && vector[other] == 0;
                    self.document.test(35, holds);
                }
            }
        }
        self.verdicts.confluence = Some(Ok(said));
        self.document.tested()
    }

    fn vector_of_confluence(&mut self) -> Checked<Vec<i128>> {
        let complexes = self.net.complexes.len();
        self.document.record("vec", |fields| fields.frees(complexes, &mut self.numbers))?;
        Ok(self.numbers.clone())
    }

    fn is_in_space(&self, vector: &[i128]) -> bool {
        let mut sums = vec![0i128; self.net.species.len()];
        let mut totals = vec![0i128; self.verdicts.linkage.count as usize];
        for ((row, label), x) in self.net.complexes.iter().zip(&self.verdicts.linkage.label).zip(vector) {
            sums.iter_mut().zip(row).for_each(|(sum, amount)| *sum += x * i128::from(*amount));
            totals[*label as usize - 1] += x;
        }
        sums.iter().chain(&totals).all(|sum| *sum == 0)
    }

    fn is_normal(&self, vector: &[i128]) -> bool {
        let divisor = vector.iter().fold(0, |divisor, x| gcd_wide(divisor, x.unsigned_abs()));
        let is_turned = self.verdicts.weak == Some(None) && vector.iter().find(|x| **x != 0).is_some_and(|x| *x < 0);
        divisor == 1 && !is_turned && gathered(&self.verdicts, vector).iter().all(|sum| *sum >= 0)
    }

    /// A tie for each complex but this one.
    fn ties(&mut self, least: Option<usize>) -> Checked<()> {
        let (net, rows) = (self.net, self.rows_of_confluence());
        for c in (0..net.complexes.len()).filter(|c| Some(*c) != least) {
            self.document.record("tie", |fields| fields.frees(rows, &mut self.numbers))?;
            let (of_species, of_classes) = self.numbers.split_at(net.species.len());
            let mut products = net.products(of_species);
            products.iter_mut().zip(&self.verdicts.linkage.label).for_each(|(x, k)| *x += of_classes[*k as usize - 1]);
            let is_tied = |(k, x): (usize, &i128)| Some(k) == least || (*x != 0) == (k == c);
            self.document.test(35, products.iter().enumerate().all(is_tied));
        }
        Ok(())
    }

    fn vector(&self) -> Option<&[i128]> {
        match &self.verdicts.confluence {
            Some(Ok(Confluence::Vector(vector))) => Some(vector),
            _ => None,
        }
    }

    pub fn signal(&mut self) -> Checked<()> {
        let (species, reactions) = (self.net.species.len(), self.net.reactions.len());
        let (has_vector, is_weak) = (self.vector().is_some(), self.verdicts.weak == Some(None));
        let second = System { number: 2, columns: reactions, rows: &[species] };
        let rows = [self.net.complexes.len() + self.pairs.len()];
        let systems = [second, System { number: 5, columns: species + 1, rows: &rows }];
        let be_wide = if has_vector { &systems } else { &systems[..1] };
        let said = self.document.record("q13", |fields| {
            if let Some(gap) = Self::gap(fields, &May { be_wide, be_spent: true, rest: Some(12) }) {
                return Err(gap);
            }
            if fields.word("yes") {
                let turn = fields.sign();
                fields.is_bad |= turn == 0;
                return Ok(Some(turn));
            }
            let is_no = fields.word("no");
            fields.is_bad |= !is_no && !fields.word("none");
            Ok(is_no.then_some(0))
        })?;
        let said = match said {
            Ok(said) => said,
            Err(gap) => {
                self.verdicts.signal = Some(Err(gap));
                return Ok(());
            }
        };
        let is_open = matches!(self.verdicts.confluence, Some(Err(_)));
        let holds = !is_open && has_vector == said.is_some() && (said != Some(-1) || is_weak);
        self.document.test(37, holds);
        self.document.tested()?;
        self.verdicts.signal = Some(Ok(match said {
            None => Signal::NotApplicable,
            Some(0) => {
                let turns: &[i128] = if is_weak { &[1, -1] } else { &[1] };
                turns.iter().try_for_each(|turn| self.signal_tree(*turn))?;
                Signal::No
            }
            Some(turn) => self.signal_shown(turn)?,
        }));
        Ok(())
    }

    fn signals(&self, turn: i128) -> Signals {
        let vector = self.vector().unwrap();
        Signals::new(self.net, &self.verdicts, &self.pairs, &self.sides, vector, turn)
    }

    fn signal_tree(&mut self, turn: i128) -> Checked<()> {
        let problem = self.signals(turn);
        match self.net.species.len() + 1 + problem.rows() {
            ..=64 => self.tree::<_, 1>(&problem, problem.rows()),
            ..=128 => self.tree::<_, 2>(&problem, problem.rows()),
            ..=256 => self.tree::<_, 4>(&problem, problem.rows()),
            _ => self.tree::<_, 6>(&problem, problem.rows()),
        }
    }

    fn signal_shown(&mut self, turn: i8) -> Checked<Signal> {
        let problem = self.signals(turn.into());
        let mut shelves = Vec::with_capacity(problem.shelves);
        self.document.record("shelves", |fields| {
            while shelves.len() < problem.shelves && !fields.is_bad {
                let shelf = fields.sign();
                shelves.push(shelf);
            }
            shelves.resize(problem.shelves, 0);
        })?;
        let (mut mu, mut m, mut weights) = (Vec::new(), 0, Vec::new());
        self.document.record("mu", |fields| fields.frees(self.net.species.len(), &mut mu))?;
        self.document.record("m", |fields| m = fields.free())?;
        self.document.record("weights", |fields| fields.frees(self.net.reactions.len(), &mut weights))?;
        let change = self.net.combination(&weights);
        let are_signs = change.iter().zip(&mu).all(|(x, y)| x.signum() == y.signum());
        self.document.test(45, are_signs && problem.are_kept(&shelves, &mu, m, self.net));
        self.document.tested()?;
        Ok(Signal::Yes { turn: turn.into(), shelves, mu, m, weights })
    }

    fn tree<P: Problem<W>, const W: usize>(&mut self, problem: &P, rows_a: usize) -> Checked<()> {
        let shared = self.document.shared.count() as usize;
        TreeCheck::new(problem, self.net, rows_a, shared).read(self.document)
    }

    pub fn concordant(&mut self, is_strong: bool) -> Checked<()> {
        let (species, reactions) = (self.net.species.len(), self.net.reactions.len());
        let system = System { number: 2, columns: reactions, rows: &[species] };
        let word = if is_strong { "q15" } else { "q14" };
        let said = self.document.record(word, |fields| {
            if let Some(gap) = Self::gap(fields, &May { be_wide: &[system], be_spent: true, rest: None }) {
                return Err(gap);
            }
            let is_yes = fields.word("yes");
            fields.is_bad |= !is_yes && !fields.word("no");
            Ok(is_yes)
        })?;
        let problem = Concordance::new(self.net, is_strong);
        self.verdicts.concordant[usize::from(is_strong)] = Some(match said {
            Err(gap) => Err(gap),
            Ok(true) => {
                match reactions {
                    ..=64 => self.tree::<_, 1>(&problem, species)?,
                    ..=128 => self.tree::<_, 2>(&problem, species)?,
                    _ => self.tree::<_, 4>(&problem, species)?,
                }
                Ok(None)
            }
            Ok(false) => Ok(Some(self.pair(&problem)?)),
        });
        Ok(())
    }

    fn pair(&mut self, problem: &Concordance) -> Checked<Pair> {
        let reactions = self.net.reactions.len();
        let (mut alpha, mut weights) = (Vec::new(), Vec::new());
        self.document.record("alpha", |fields| fields.frees(reactions, &mut alpha))?;
        self.document.record("weights", |fields| fields.frees(reactions, &mut weights))?;
        let change = self.net.combination(&weights);
        let cancel = self.net.combination(&alpha).iter().all(|sum| *sum == 0);
        let holds = cancel && change.iter().any(|x| *x != 0) && problem.goes(&alpha, &change);
        self.document.test(45, holds);
        self.document.tested()?;
        Ok(Pair { alpha, weights })
    }
}
