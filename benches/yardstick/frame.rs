//! How the coordinates of a space lie among those of its system.

use crate::linear::{LIMIT, Rank, Wide};
use crate::net::{Net, gcd_wide};

/// A base of the reaction vectors with its duals: what turns vectors over reactions or over species alone into those of
/// system 2.
pub struct Base {
    species: usize,
    reactions: usize,
    /// For each member its reaction, its dual and the product of the two.
    members: Vec<(usize, Vec<i64>, i128)>,
    /// The species whose rows are independent.
    rows: Vec<u32>,
}

impl Base {
    pub fn new(net: &Net, rank: &Rank) -> Base {
        let mut members = Vec::with_capacity(rank.base.len());
        for (i, (reaction, _)) in rank.base.iter().enumerate() {
            let mut dual = Vec::new();
            rank.dual(i, &mut dual);
            let own = net.vector(*reaction as usize).zip(&dual).map(|(x, y)| i128::from(x) * i128::from(*y)).sum();
            members.push((*reaction as usize, dual, own));
        }
        let reactions = net.reactions.len();
        let rows = rank.dictionary.basis.iter().filter(|c| !rank.dictionary.is_column(**c));
        let rows = rows.map(|c| c - reactions as u32).collect();
        Base { species: net.species.len(), reactions, members, rows }
    }

    /// A vector over the species and the weights of the base that make it: both, or nothing where an entry of the least
    /// whole multiple is too great.
    fn weights(&self, change: &[i128]) -> Option<Vec<i128>> {
        let mut fractions = Vec::with_capacity(self.members.len());
        for (reaction, dual, own) in &self.members {
            let product = dual.iter().zip(change).try_fold(0i128, |sum, (x, y)| {
                i128::from(*x).checked_mul(*y).and_then(|product| sum.checked_add(product))
            })?;
            fractions.push((*reaction, product, *own));
        }
        let common = fractions.iter().try_fold(1u128, |common, (_, product, own)| {
            let own = own.unsigned_abs() / gcd_wide(own.unsigned_abs(), product.unsigned_abs());
            (common / gcd_wide(common, own)).checked_mul(own).filter(|common| *common < LIMIT)
        })?;
        let mut weights = vec![0; self.reactions];
        for (reaction, product, own) in fractions {
            let shared = gcd_wide(product.unsigned_abs(), own.unsigned_abs()) as i128;
            weights[reaction] = (common as i128 / (own / shared)).checked_mul(product / shared)?;
        }
        let fits = |x: &i128| x.unsigned_abs() < LIMIT;
        let is_small =
            weights.iter().all(fits) && change.iter().all(|x| x.checked_mul(common as i128).is_some_and(|x| fits(&x)));
        is_small.then_some(weights)
    }

    /// Multipliers of the species whose combination of the rows is the negative of this vector, or of a multiple of it.
    pub fn multipliers(&self, dual: &[i64]) -> Option<Vec<i128>> {
        let mut common = 1u128;
        for (reaction, _, own) in &self.members {
            let own = own.unsigned_abs() / gcd_wide(own.unsigned_abs(), dual[*reaction].unsigned_abs().into());
            common = (common / gcd_wide(common, own)).checked_mul(own).filter(|common| *common < 1 << 120)?;
        }
        let mut sums = vec![0i128; self.species];
        for (reaction, of_member, own) in self.members.iter().filter(|(reaction, ..)| dual[*reaction] != 0) {
            let number = i128::from(dual[*reaction]);
            let shared = gcd_wide(number.unsigned_abs(), own.unsigned_abs()) as i128;
            let times = (common as i128 / (own / shared)).checked_mul(number / shared)?;
            for (sum, entry) in sums.iter_mut().zip(of_member).filter(|(_, entry)| **entry != 0) {
                *sum = times.checked_mul((*entry).into()).and_then(|product| sum.checked_sub(product))?;
            }
        }
        // The list over reactions is primitive, so only the multiple can be divided.
        let divisor = sums.iter().fold(common, |divisor, sum| gcd_wide(divisor, sum.unsigned_abs()));
        let times = common / divisor;
        sums.iter_mut().for_each(|sum| *sum /= divisor as i128);
        let is_small = sums.iter().all(|sum| sum.unsigned_abs() < LIMIT)
            && dual.iter().all(|x| times.checked_mul(x.unsigned_abs().into()).is_some_and(|x| x < LIMIT));
        is_small.then_some(sums)
    }
}

/// How the coordinates of a space lie among those of its system.
pub enum Frame<'b> {
    /// They are all of them, so many columns first.
    All(usize),
    /// The reactions of system 2, where species are zero.
    Reactions(&'b Base),
    /// The species of system 2.
    Species(&'b Base),
}

impl Frame<'_> {
    pub fn multipliers(&self, dual: &[i64]) -> Option<Vec<i128>> {
        match self {
            Frame::All(columns) => Some(dual[*columns..].iter().map(|x| i128::from(*x)).collect()),
            Frame::Reactions(base) => base.multipliers(dual),
            Frame::Species(_) => Some(dual.iter().map(|x| i128::from(*x)).collect()),
        }
    }

    /// The columns of the system that have these coordinates, or a multiple of them.
    pub fn columns(&self, vector: &[i128]) -> Option<Vec<i128>> {
        match self {
            Frame::All(columns) => Some(vector[..*columns].to_vec()),
            Frame::Reactions(_) => Some(vector.to_vec()),
            Frame::Species(base) => base.weights(vector),
        }
    }

    /// The index and the basis of the system, counted from 1.
    pub fn named(&self, wide: Wide) -> (u32, Vec<u32>) {
        let (first, more): (u32, Vec<u32>) = match self {
            Frame::All(_) => (1, Vec::new()),
            Frame::Reactions(base) => (1, base.rows.iter().map(|s| base.reactions as u32 + s + 1).collect()),
            Frame::Species(base) => {
                let is_member = |r: &u32| base.members.iter().any(|(member, ..)| *member == *r as usize);
                let others = (0..base.reactions as u32).filter(|r| !is_member(r)).map(|r| r + 1);
                (base.reactions as u32 + 1, others.collect())
            }
        };
        let mut basis: Vec<u32> = wide.basis.iter().map(|c| c + first).chain(more).collect();
        basis.sort_unstable();
        (wide.index + first, basis)
    }
}
