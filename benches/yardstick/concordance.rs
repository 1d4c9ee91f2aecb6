//! Concordance and strong concordance: the sign problem of an influence table.

use crate::answers::{Answer, Gap};
use crate::frame::{Base, Frame};
use crate::linear::{Dictionary, Rank};
use crate::net::Net;
use crate::search::{End, Problem, Search, Tree, WideIn, Work};
use crate::signs::{Kinds, Mask, Signs};
use crate::space::Part;

/// For each reaction the species by which it goes up, and those by which it goes down, and for each level the reactions
/// all of whose species are chosen with it.
pub struct Concordance {
    species: usize,
    up: Vec<u64>,
    down: Vec<u64>,
    settled: Vec<Vec<u32>>,
}

impl Concordance {
    pub fn new(net: &Net, is_strong: bool) -> Concordance {
        let species = net.species.len();
        let (mut up, mut down, mut settled) = (Vec::new(), Vec::new(), vec![Vec::new(); species + 1]);
        for (r, (y, z)) in net.reactions.iter().enumerate() {
            let (y, z) = (&net.complexes[*y as usize], &net.complexes[*z as usize]);
            let mask = |test: &dyn Fn(u8, u8) -> bool| {
                (0..species).filter(|s| test(y[*s], z[*s])).fold(0u64, |mask, s| mask | 1 << s)
            };
            up.push(if is_strong { mask(&|y, z| y > z) } else { mask(&|y, _| y > 0) });
            down.push(if is_strong { mask(&|y, z| y < z) } else { 0 });
            settled[64 - (up[r] | down[r]).leading_zeros() as usize].push(r as u32);
        }
        Concordance { species, up, down, settled }
    }

    /// Whether weights of reactions and a change of species go together.
    pub fn goes(&self, alpha: &[i128], change: &[i128]) -> bool {
        let mask = |sign: i128| {
            change.iter().enumerate().filter(|(_, x)| x.signum() == sign).fold(0u64, |mask, (s, _)| mask | 1 << s)
        };
        let (plus, minus) = (mask(1), mask(-1));
        alpha.iter().enumerate().all(|(r, number)| {
            let rises = (self.up[r] & plus) | (self.down[r] & minus) != 0;
            let falls = (self.up[r] & minus) | (self.down[r] & plus) != 0;
            match number.signum() {
                0 => rises == falls,
                1 => rises,
                _ => falls,
            }
        })
    }
}

impl<const W: usize> Problem<W> for Concordance {
    fn length(&self) -> usize {
        self.species
    }

    fn settled_a(&self) -> Vec<Mask<W>> {
        let mask = |reactions: &Vec<u32>| {
            let mut mask = Mask::NONE;
            reactions.iter().for_each(|r| mask.add(*r as usize));
            mask
        };
        self.settled.iter().map(mask).collect()
    }

    fn settled_b(&self) -> Vec<Mask<1>> {
        (0..=self.species).map(|level| Mask([if level == 0 { 0 } else { 1 << (level - 1) }])).collect()
    }

    fn gained_a(&self, prefix: &[i8], signs: &Kinds<1>) -> Kinds<W> {
        let (plus, minus, mut gained) = (signs.plus.0[0], signs.minus.0[0], Kinds::FREE);
        for r in &self.settled[prefix.len()] {
            let r = *r as usize;
            let rises = (self.up[r] & plus) | (self.down[r] & minus) != 0;
            let falls = (self.up[r] & minus) | (self.down[r] & plus) != 0;
            if !(rises && falls) {
                gained.put(r, i8::from(rises) - i8::from(falls));
            }
        }
        gained
    }

    fn gained_b(&self, prefix: &[i8]) -> Kinds<1> {
        let mut gained = Kinds::FREE;
        if let [.., last] = prefix {
            gained.put(prefix.len() - 1, *last);
        }
        gained
    }

    fn closed(&self, prefix: &[i8], signs: &Kinds<1>) -> bool {
        prefix.len() == self.species && signs.plus.is_empty() && signs.minus.is_empty()
    }

    fn dual(&self, net: &Net, list: &[i128]) -> Signs<W> {
        let products = net.products(list);
        Signs::of(net.reactions.iter().map(|(y, z)| products[*y as usize] - products[*z as usize]))
    }
}

/// The lists that show a table discordant.
pub struct Pair {
    pub alpha: Vec<i128>,
    pub weights: Vec<i128>,
}

/// The weights of the reactions that cancel: those of the base by the others.
fn cancelling(rank: &Rank) -> Dictionary {
    let from = &rank.dictionary;
    let places: Vec<usize> = (0..from.width).filter(|q| from.is_column(from.basis[*q])).collect();
    let basis = places.iter().map(|q| from.basis[*q]).collect();
    let mut made = Dictionary::new(from.columns, basis, rank.base.len());
    for (reaction, i) in &rank.base {
        made.push(*reaction, from.den[*i], places.iter().map(|q| from.entry(*i, *q)));
    }
    made
}

/// The changes that reactions make: species by independent ones.
pub fn changes(rank: &Rank) -> Dictionary {
    let from = &rank.dictionary;
    let places: Vec<usize> = (0..from.width).filter(|q| !from.is_column(from.basis[*q])).collect();
    let named = |c: u32| c - from.columns as u32;
    let basis = places.iter().map(|q| named(from.basis[*q])).collect();
    let mut made = Dictionary::new(rank.species, basis, rank.species - rank.base.len());
    for (i, c) in from.rows.iter().enumerate().filter(|(_, c)| !from.is_column(**c)) {
        made.push(named(*c), from.den[i], places.iter().map(|q| from.entry(i, *q)));
    }
    made
}

/// An answer, the tree that shows it, and what the search did.
type Found = (Answer<Option<Pair>>, Option<Tree>, Work);

fn search<const W: usize>(rank: &Rank, base: &Base, problem: &Concordance, budget: u32, shows: bool) -> Found {
    let reactions = problem.up.len();
    let a = Part::new(cancelling(rank), Frame::Reactions(base), Problem::<W>::settled_a(problem));
    let b = Part::new(changes(rank), Frame::Species(base), Problem::<W>::settled_b(problem));
    let mut search = Search::new(problem, a, b, (reactions, reactions), shows);
    let (answer, tree) = match search.run(budget) {
        Err(WideIn { index, basis, .. }) => (Err(Gap::Wide { system: 2, class: 0, index, basis }), None),
        Ok(End::Spent) => (Err(Gap::Budget(budget)), None),
        Ok(End::Refuted(tree)) => (Ok(None), Some(tree)),
        Ok(End::Found(_, alpha, weights)) => (Ok(Some(Pair { alpha, weights })), None),
    };
    (answer, tree, search.work())
}

/// The pair that shows the table discordant, or none and the tree that shows that there is none.
pub fn concordant(net: &Net, rank: &Rank, base: &Base, is_strong: bool, budget: u32, shows: bool) -> Found {
    let problem = Concordance::new(net, is_strong);
    match net.reactions.len() {
        ..=64 => search::<1>(rank, base, &problem, budget, shows),
        ..=128 => search::<2>(rank, base, &problem, budget, shows),
        _ => search::<4>(rank, base, &problem, budget, shows),
    }
}
