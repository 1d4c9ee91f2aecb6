//! Persistence by siphons: the part document of a network, by a search over sets of species as bits.

use crate::frame::Base;
use crate::linear::{Dictionary, Positive, Rank, Wide};
use crate::net::{Net, gcd_wide, put_number};

/// The lines of an answer, and whether it is open.
pub struct Answer {
    pub lines: Vec<u8>,
    pub is_open: bool,
}

/// A node that ends a branch, or a fork; in preorder.
enum Node {
    Fork,
    Bad(u32),
    Law(usize),
    Void,
}

/// How the visits of a prefix and of all below it end.
enum End {
    Refuted,
    /// A full set, and the place of what increases each member.
    Found(u64, usize),
    Spent,
}

/// How many covers are kept at once.
const MAX_COVERS: usize = 64;

/// What the solver says of a set: the species that a combination increases with their changes, or a law within it.
enum Decision {
    Cover(Vec<i128>),
    Law(Vec<i128>),
}

struct Search<'n> {
    species: usize,
    /// For each species the reactions that hold it, ascending, with the species of the reactant and of the product.
    holders: Vec<Vec<(u32, u64, u64)>>,
    /// The space of changes: independent species, and the others by them.
    space: &'n Dictionary,
    left: u32,
    nodes: Vec<Node>,
    /// Changes, and the species that they increase.
    covers: Vec<(u64, Vec<i128>)>,
    laws: Vec<(u64, Vec<i128>)>,
}

fn put_line(word: &str, numbers: &[i128], out: &mut Vec<u8>) {
    out.extend_from_slice(word.as_bytes());
    for number in numbers {
        out.push(b' ');
        put_number(out, *number);
    }
    out.push(b'\n');
}

fn held(net: &Net, c: u32) -> u64 {
    (0..net.species.len()).filter(|s| net.complexes[c as usize][*s] > 0).fold(0, |set, s| set | 1 << s)
}

/// The dictionary of the changes: species alone, those that are independent in the basis.
fn changes(rank: &Rank, species: usize) -> Dictionary {
    let old = &rank.dictionary;
    let members = old.columns;
    let places: Vec<usize> = (0..old.basis.len()).filter(|place| !old.is_column(old.basis[*place])).collect();
    let basis = places.iter().map(|place| old.basis[*place] - members as u32).collect();
    let mut made = Dictionary::new(species, basis, species);
    for i in (0..old.rows.len()).filter(|i| !old.is_column(old.rows[*i])) {
        made.push(old.rows[i] - members as u32, old.den[i], places.iter().map(|place| old.entry(i, *place)));
    }
    made
}

/// Whether a combination increases each species of the set, by Bland's rule on those of the basis at 1.
fn decide(space: &Dictionary, set: u64) -> Result<Decision, Wide> {
    let mut made = space.clone();
    let is_in = |c: u32| set >> c & 1 == 1;
    // Species outside the set leave the basis where they can.
    for i in 0..made.rows.len() {
        if is_in(made.rows[i]) {
            let place = (0..made.width).find(|place| made.entry(i, *place) != 0 && !is_in(made.basis[*place]));
            if let Some(place) = place {
                made.exchange(i, place)?;
            }
        }
    }
    loop {
        let (mut chosen, mut is_done): (Option<usize>, bool) = (None, true);
        for i in (0..made.rows.len()).filter(|i| is_in(made.rows[*i])) {
            let (mut sum, mut has_plus) = (0i128, false);
            for entry in made.row(i) {
                sum += i128::from(*entry);
                has_plus |= *entry > 0;
            }
            if !has_plus {
                return Ok(Decision::Law(law(&made, i)));
            }
            is_done &= sum > 0;
            if sum < i128::from(made.den[i]) && chosen.is_none_or(|j| made.rows[i] < made.rows[j]) {
                chosen = Some(i);
            }
        }
        let Some(i) = chosen.filter(|_| !is_done) else { return Ok(Decision::Cover(cover(&made)?)) };
        let pluses = (0..made.width).filter(|place| made.entry(i, *place) > 0);
        let place = pluses.min_by_key(|place| made.basis[*place]).unwrap();
        made.exchange(i, place)?;
    }
}

/// The law that a row without a positive entry is.
fn law(made: &Dictionary, i: usize) -> Vec<i128> {
    let mut weights = vec![0; made.columns];
    weights[made.rows[i] as usize] = i128::from(made.den[i]);
    for (coordinate, entry) in made.basis.iter().zip(made.row(i)) {
        weights[*coordinate as usize] = -i128::from(*entry);
    }
    let divisor = weights.iter().fold(0, |divisor, x: &i128| gcd_wide(divisor, x.unsigned_abs()));
    weights.iter_mut().for_each(|x| *x /= divisor as i128);
    weights
}

/// The changes where each species of the basis has the same one.
fn cover(made: &Dictionary) -> Result<Vec<i128>, Wide> {
    let sums: Vec<i128> = (0..made.rows.len()).map(|i| made.row(i).iter().map(|x| i128::from(*x)).sum()).collect();
    let mut common = 1u128;
    for (den, sum) in made.den.iter().zip(&sums) {
        let own = *den as u128 / gcd_wide(*den as u128, sum.unsigned_abs());
        common = (common / gcd_wide(common, own)).checked_mul(own).ok_or_else(|| made.wide(made.rows[0]))?;
    }
    let mut values = vec![common as i128; made.columns];
    for ((coordinate, den), sum) in made.rows.iter().zip(&made.den).zip(&sums) {
        values[*coordinate as usize] = common as i128 * sum / i128::from(*den);
    }
    Ok(values)
}

/// The species with positive numbers.
fn positive(numbers: &[i128]) -> u64 {
    (0..numbers.len()).filter(|s| numbers[*s] > 0).fold(0, |set, s| set | 1 << s)
}

impl Search<'_> {
    /// The least reaction that stops the prefix. Its parent stands, so such a reaction holds the species chosen last.
    fn stopping(&self, chosen: usize, inside: u64, outside: u64) -> Option<u32> {
        let stops = |(_, reactant, product): &&(u32, u64, u64)| product & inside != 0 && reactant & !outside == 0;
        self.holders[chosen.checked_sub(1)?].iter().find(stops).map(|(r, _, _)| *r)
    }

    /// The place of a law within the set, or else of changes that increase each member.
    fn law_within(&mut self, set: u64) -> Result<Result<usize, usize>, Wide> {
        if let Some(known) = self.covers.iter().position(|(covered, _)| set & !covered == 0) {
            return Ok(Err(known));
        }
        if let Some(known) = self.laws.iter().position(|(support, _)| support & !set == 0) {
            return Ok(Ok(known));
        }
        match decide(self.space, set)? {
            Decision::Cover(changes) => {
                if self.covers.len() == MAX_COVERS {
                    self.covers.clear();
                }
                self.covers.push((positive(&changes), changes));
                Ok(Err(self.covers.len() - 1))
            }
            Decision::Law(weights) => {
                self.laws.push((positive(&weights), weights));
                Ok(Ok(self.laws.len() - 1))
            }
        }
    }

    fn walk(&mut self, chosen: usize, inside: u64, outside: u64) -> Result<End, Wide> {
        if self.left == 0 {
            return Ok(End::Spent);
        }
        self.left -= 1;
        if let Some(r) = self.stopping(chosen, inside, outside) {
            self.nodes.push(Node::Bad(r));
            return Ok(End::Refuted);
        }
        if chosen == self.species && inside == 0 {
            self.nodes.push(Node::Void);
            return Ok(End::Refuted);
        }
        let cover = match self.law_within(inside)? {
            Ok(law) => {
                self.nodes.push(Node::Law(law));
                return Ok(End::Refuted);
            }
            Err(cover) => cover,
        };
        if chosen == self.species {
            return Ok(End::Found(inside, cover));
        }
        self.nodes.push(Node::Fork);
        match self.walk(chosen + 1, inside | 1 << chosen, outside)? {
            End::Refuted => self.walk(chosen + 1, inside, outside | 1 << chosen),
            end => Ok(end),
        }
    }
}

/// For each species the reactions that hold it.
fn holders(net: &Net) -> Vec<Vec<(u32, u64, u64)>> {
    let ends: Vec<_> = net.reactions.iter().zip(1..).map(|((y, z), r)| (r, held(net, *y), held(net, *z))).collect();
    (0..net.species.len()).map(|s| ends.iter().copied().filter(|(_, y, z)| (y | z) >> s & 1 == 1).collect()).collect()
}

fn wide_answer(system: u32, wide: (u32, Vec<u32>)) -> Answer {
    let mut lines = Vec::new();
    let numbers = [system, wide.0].into_iter().chain(wide.1).map(i128::from);
    put_line("wide", &numbers.collect::<Vec<_>>(), &mut lines);
    Answer { lines, is_open: true }
}

/// The lines of the answer with this budget.
pub fn persist(net: &Net, budget: u32) -> Answer {
    let (species, reactions) = (net.species.len(), net.reactions.len());
    let counted = |wide: Wide| (wide.index + 1, wide.basis.iter().map(|c| c + 1).collect());
    let rank = match Rank::new(net, (0..reactions as u32).collect()) {
        Ok(rank) => rank,
        Err(wide) => return wide_answer(2, counted(wide)),
    };
    let mut lines = Vec::new();
    let law = match rank.conservation() {
        Ok(Positive::Yes(law)) => law,
        Ok(Positive::No(cut)) => {
            put_line("no", &[], &mut lines);
            put_line("cut", &cut, &mut lines);
            return Answer { lines, is_open: false };
        }
        Err(wide) => return wide_answer(1, counted(wide)),
    };
    let space = changes(&rank, species);
    let base = Base::new(net, &rank);
    let mut search = Search {
        species,
        holders: holders(net),
        space: &space,
        left: budget,
        nodes: Vec::new(),
        covers: vec![(0, vec![0; species])],
        laws: Vec::new(),
    };
    match search.walk(0, 0, 0) {
        Ok(End::Refuted) => {
            put_line("yes", &[], &mut lines);
            put_line("vec", &law, &mut lines);
            for node in &search.nodes {
                match node {
                    Node::Fork => put_line("fork", &[], &mut lines),
                    Node::Bad(r) => put_line("bad", &[i128::from(*r)], &mut lines),
                    Node::Law(known) => put_line("law", &search.laws[*known].1, &mut lines),
                    Node::Void => put_line("void", &[], &mut lines),
                }
            }
        }
        Ok(End::Found(set, cover)) => {
            put_line("no", &[], &mut lines);
            let marks: Vec<i128> = (0..species).map(|s| i128::from(set >> s & 1)).collect();
            put_line("siphon", &marks, &mut lines);
            let frame = crate::frame::Frame::Species(&base);
            put_line("mult", &frame.columns(&search.covers[cover].1).expect("small weights"), &mut lines);
        }
        Ok(End::Spent) => {
            put_line("spent", &[i128::from(budget)], &mut lines);
            return Answer { lines, is_open: true };
        }
        Err(wide) => return wide_answer(2, crate::frame::Frame::Species(&base).named(wide)),
    }
    Answer { lines, is_open: false }
}
