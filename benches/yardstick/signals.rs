//! Signals for a confluence vector: the sign problem of shelves and of the signs of mu.

use crate::answers::{Answer, Gap, Verdicts};
use crate::concordance::changes;
use crate::frame::{Base, Frame};
use crate::linear::{Dictionary, Rank};
use crate::net::Net;
use crate::regular::Confluence;
use crate::search::{End, Problem, Search, Tree, WideIn, Work};
use crate::signs::{Kinds, Mask, Signs};
use crate::space::Part;

pub struct Signals {
    species: usize,
    /// For each complex its terminal class.
    tops: Vec<Option<usize>>,
    pub shelves: usize,
    /// For each cut pair its complexes, and the sign of the sum of g over the side of the second.
    pairs: Vec<(u32, u32, i8)>,
}

pub enum Signal {
    Yes { turn: i128, shelves: Vec<i8>, mu: Vec<i128>, m: i128, weights: Vec<i128> },
    No,
    NotApplicable,
}

impl Signals {
    /// The problem of `turn` times g. `sides` has marks for each of the pairs, which are reactions.
    pub fn new(net: &Net, verdicts: &Verdicts, pairs: &[u32], sides: &[Vec<u8>], g: &[i128], turn: i128) -> Signals {
        let strong = verdicts.strong.as_ref().unwrap();
        let mut number = vec![None; strong.count as usize];
        let terminal = (0..strong.count as usize).filter(|k| verdicts.exits[*k] == 0);
        let shelves = terminal.enumerate().map(|(top, k)| number[k] = Some(top)).count();
        let tops = strong.label.iter().map(|label| number[*label as usize - 1]).collect();
        let pair = |(r, side): (&u32, &Vec<u8>)| {
            let (y, z) = net.reactions[*r as usize];
            let sum: i128 = side.iter().zip(g).filter(|(mark, _)| **mark == 1).map(|(_, x)| x).sum();
            (y, z, (sum.signum() * turn) as i8)
        };
        let pairs = pairs.iter().zip(sides).map(pair).collect();
        Signals { species: net.species.len(), tops, shelves, pairs }
    }

    /// How many rows part A has.
    pub fn rows(&self) -> usize {
        self.tops.len() + self.pairs.len()
    }

    fn coordinates(&self) -> usize {
        self.species + 1 + self.rows()
    }

    fn dictionary(&self, net: &Net) -> Dictionary {
        let columns = self.species + 1;
        let mut made = Dictionary::new(columns, (0..columns as u32).collect(), self.rows());
        let amount = |c: u32, s: usize| i64::from(net.complexes[c as usize][s]);
        for c in 0..self.tops.len() as u32 {
            made.push(columns as u32 + c, 1, (0..self.species).map(|s| amount(c, s)).chain([-1]));
        }
        let first = (columns + self.tops.len()) as u32;
        for (i, (y, z, _)) in self.pairs.iter().enumerate() {
            made.push(first + i as u32, 1, (0..self.species).map(|s| amount(*z, s) - amount(*y, s)).chain([0]));
        }
        made
    }

    /// The place of each row of a terminal class, and the sign that it has on the upper shelf, or none where it is free
    /// on the middle one.
    fn rows_of(&self, top: usize) -> impl Iterator<Item = (usize, i8, bool)> {
        let first = self.species + 1;
        let is_on = move |c: usize| self.tops[c] == Some(top);
        let complexes = (0..self.tops.len()).filter(move |c| is_on(*c)).map(move |c| (first + c, 1, false));
        let pairs = self.pairs.iter().enumerate().filter(move |(_, (y, ..))| is_on(*y as usize));
        complexes.chain(pairs.map(move |(i, (_, _, sign))| (first + self.tops.len() + i, *sign, true)))
    }

    /// Whether all values have the kinds of these shelves, and mu is not zero.
    pub fn are_kept(&self, shelves: &[i8], mu: &[i128], m: i128, net: &Net) -> bool {
        let value =
            |c: usize| mu.iter().zip(&net.complexes[c]).map(|(x, amount)| x * i128::from(*amount)).sum::<i128>();
        let values: Vec<i128> = (0..self.tops.len()).map(value).collect();
        let shelf = |c: usize| self.tops[c].map_or(0, |top| shelves[top]);
        let are_shelved = (0..values.len()).all(|c| (values[c] - m).signum() == i128::from(shelf(c)));
        let go = |(y, z, sign): &(u32, u32, i8)| {
            let shelf = shelf(*y as usize);
            shelf == 0 || (values[*z as usize] - values[*y as usize]).signum() == i128::from(sign * shelf)
        };
        are_shelved && self.pairs.iter().all(go) && mu.iter().any(|x| *x != 0)
    }
}

impl<const W: usize> Problem<W> for Signals {
    fn length(&self) -> usize {
        self.shelves + self.species
    }

    fn settled_a(&self) -> Vec<Mask<W>> {
        let mut settled = vec![Mask::NONE; self.shelves + self.species + 1];
        let free = (0..self.tops.len()).filter(|c| self.tops[*c].is_none());
        free.for_each(|c| settled[0].add(self.species + 1 + c));
        for top in 0..self.shelves {
            self.rows_of(top).for_each(|(row, ..)| settled[top + 1].add(row));
        }
        (0..self.species).for_each(|s| settled[self.shelves + 1 + s].add(s));
        settled
    }

    fn settled_b(&self) -> Vec<Mask<1>> {
        let mut settled = vec![Mask::NONE; self.shelves + self.species + 1];
        (0..self.species).for_each(|s| settled[self.shelves + 1 + s].add(s));
        settled
    }

    fn gained_a(&self, prefix: &[i8], _: &Kinds<1>) -> Kinds<W> {
        let mut gained = Kinds::FREE;
        match prefix {
            [] => {
                let none = (0..self.tops.len()).filter(|c| self.tops[*c].is_none());
                none.for_each(|c| gained.put(self.species + 1 + c, 0));
            }
            [.., option] if prefix.len() > self.shelves => gained.put(prefix.len() - self.shelves - 1, *option),
            [.., shelf] => {
                for (row, sign, is_pair) in self.rows_of(prefix.len() - 1) {
                    if *shelf != 0 || !is_pair {
                        gained.put(row, sign * shelf);
                    }
                }
            }
        }
        gained
    }

    fn gained_b(&self, prefix: &[i8]) -> Kinds<1> {
        let mut gained = Kinds::FREE;
        if prefix.len() > self.shelves {
            gained.put(prefix.len() - self.shelves - 1, prefix[prefix.len() - 1]);
        }
        gained
    }

    fn closed(&self, prefix: &[i8], signs: &Kinds<1>) -> bool {
        let is_middle = prefix.len() >= self.shelves && prefix[..self.shelves].iter().all(|shelf| *shelf == 0);
        let is_full = prefix.len() == self.shelves + self.species;
        is_middle || is_full && signs.plus.is_empty() && signs.minus.is_empty()
    }

    fn dual(&self, net: &Net, list: &[i128]) -> Signs<W> {
        let (of_complexes, of_pairs) = list.split_at(self.tops.len());
        let mut totals = of_complexes.to_vec();
        for ((y, z, _), x) in self.pairs.iter().zip(of_pairs) {
            totals[*y as usize] -= x;
            totals[*z as usize] += x;
        }
        let mut sums = vec![0i128; self.species];
        for (row, x) in net.complexes.iter().zip(&totals).filter(|(_, x)| **x != 0) {
            sums.iter_mut().zip(row).for_each(|(sum, amount)| *sum -= x * i128::from(*amount));
        }
        let of_m = of_complexes.iter().sum();
        Signs::of(sums.into_iter().chain([of_m]).chain(list.iter().copied()))
    }
}

/// How a search ended, and what it did.
type Ended = (Result<End, Gap>, Work);

fn search<const W: usize>(net: &Net, linear: Linear, problem: &Signals, budget: u32, shows: bool) -> Ended {
    let Linear { rank, base } = linear;
    let columns = (problem.species + 1, net.reactions.len());
    let a = Part::new(problem.dictionary(net), Frame::All(columns.0), Problem::<W>::settled_a(problem));
    let b = Part::new(changes(rank), Frame::Species(base), Problem::<W>::settled_b(problem));
    let mut search = Search::new(problem, a, b, columns, shows);
    let end = search.run(budget);
    let open = |WideIn { is_a, index, basis }| Gap::Wide { system: if is_a { 5 } else { 2 }, class: 0, index, basis };
    (end.map_err(open), search.work())
}

/// The rank of a network and its base.
#[derive(Clone, Copy)]
pub struct Linear<'l> {
    pub rank: &'l Rank,
    pub base: &'l Base,
}

/// What is known of a regular network: the pairs of its terminal classes, and their sides.
pub struct Sides<'s> {
    pub pairs: &'s [u32],
    pub marks: &'s [Vec<u8>],
}

/// An answer, the trees that show it, and what the searches did.
type Found = (Answer<Signal>, Vec<Tree>, Work);

pub fn signal(
    net: &Net,
    verdicts: &Verdicts,
    linear: Result<Linear, Gap>,
    sides: &Sides,
    budget: u32,
    shows: bool,
) -> Found {
    let g = match &verdicts.confluence {
        Some(Ok(Confluence::Vector(g))) => g,
        Some(Ok(_)) => return (Ok(Signal::NotApplicable), Vec::new(), Work::default()),
        _ => return (Err(Gap::Rests(12)), Vec::new(), Work::default()),
    };
    let linear = match linear {
        Ok(linear) => linear,
        Err(gap) => return (Err(gap), Vec::new(), Work::default()),
    };
    let turns: &[i128] = if verdicts.weak == Some(None) { &[1, -1] } else { &[1] };
    let (mut trees, mut work) = (Vec::new(), Work::default());
    for turn in turns {
        let problem = Signals::new(net, verdicts, sides.pairs, sides.marks, g, *turn);
        let (end, more) = match problem.coordinates() {
            ..=64 => search::<1>(net, linear, &problem, budget, shows),
            ..=128 => search::<2>(net, linear, &problem, budget, shows),
            ..=256 => search::<4>(net, linear, &problem, budget, shows),
            _ => search::<6>(net, linear, &problem, budget, shows),
        };
        work += more;
        match end {
            Err(gap) => return (Err(gap), Vec::new(), work),
            Ok(End::Spent) => return (Err(Gap::Budget(budget)), Vec::new(), work),
            Ok(End::Refuted(tree)) => trees.push(tree),
            Ok(End::Found(mut prefix, mut mu, weights)) => {
                prefix.truncate(problem.shelves);
                let m = mu.pop().unwrap();
                let answer = Signal::Yes { turn: *turn, shelves: prefix, mu, m, weights };
                return (Ok(answer), Vec::new(), work);
            }
        }
    }
    (Ok(Signal::No), trees, work)
}
