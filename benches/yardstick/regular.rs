//! Regularity and the confluence space, with the sides and ties of a certificate.

use crate::answers::{Answer, Gap, Verdicts};
use crate::graph::Forest;
use crate::linear::{Dictionary, Positive, Wide};
use crate::net::{Net, gcd_wide};
use crate::theorems::first_split;

pub enum Regular {
    Yes,
    /// A linkage class with so many terminal classes.
    Terminal(u32, u32),
    Dependence,
    /// A reaction within a terminal class, and a walk round it. Both count from 1.
    Cycle(u32, Vec<u32>),
}

pub enum Confluence {
    Vector(Vec<i128>),
    NotRegular,
    OnlyZero,
    /// Two complexes, and two vectors, each of which is zero at one of them.
    Plane([u32; 2], [Vec<i128>; 2]),
}

/// The least reaction, from 0, of each linked pair of complexes within a terminal class.
pub fn terminal_pairs(net: &Net, verdicts: &Verdicts) -> Vec<u32> {
    let Some(strong) = &verdicts.strong else { return Vec::new() };
    let size = net.complexes.len();
    let (mut is_met, mut pairs) = (vec![false; size * size], Vec::new());
    for (r, (y, z)) in net.reactions.iter().enumerate() {
        let label = strong.label[*y as usize];
        if label == strong.label[*z as usize] && verdicts.exits[label as usize - 1] == 0 {
            let (least, greatest) = (*y.min(z) as usize, *y.max(z) as usize);
            if !std::mem::replace(&mut is_met[least * size + greatest], true) {
                pairs.push(r as u32);
            }
        }
    }
    pairs
}

/// The trees of linkage classes, from their roots on.
pub struct Rooted {
    parent: Vec<u32>,
    order: Vec<u32>,
}

impl Rooted {
    pub fn new(net: &Net, forest: &Forest) -> Rooted {
        let up = |(c, r): (usize, &u32)| {
            if *r == 0 {
                return c as u32;
            }
            let (y, z) = net.reactions[*r as usize - 1];
            y ^ z ^ c as u32
        };
        let parent = forest.up.iter().enumerate().map(up).collect();
        let mut order: Vec<u32> = (0..forest.up.len() as u32).collect();
        order.sort_by_key(|c| forest.depth[*c as usize]);
        Rooted { parent, order }
    }

    /// The complexes whose link to their parents some other link goes round.
    fn rounded(&self, net: &Net, forest: &Forest) -> Vec<bool> {
        let mut is_rounded = vec![false; self.parent.len()];
        for (y, z) in &net.reactions {
            let (mut y, mut z) = (*y as usize, *z as usize);
            if self.parent[y] as usize == z || self.parent[z] as usize == y {
                continue;
            }
            while y != z {
                let lower = if forest.depth[y] < forest.depth[z] { &mut z } else { &mut y };
                is_rounded[*lower] = true;
                *lower = self.parent[*lower] as usize;
            }
        }
        is_rounded
    }

    /// For each complex whether it is on the side of the product, without the links of this cut pair.
    pub fn side(&self, net: &Net, label: &[u32], r: u32, into: &mut Vec<u8>) {
        let (y, z) = net.reactions[r as usize];
        let is_below = self.parent[z as usize] == y;
        let lower = if is_below { z } else { y };
        into.clear();
        into.resize(self.parent.len(), 0);
        for c in &self.order {
            let parent = self.parent[*c as usize];
            into[*c as usize] = u8::from(*c == lower || parent != *c && into[parent as usize] == 1);
        }
        if !is_below {
            let class = label[y as usize];
            into.iter_mut().zip(label).for_each(|(mark, k)| *mark = u8::from(*mark == 0 && *k == class));
        }
    }
}

/// A walk along links from the reactant to the product without a step between them, counted from 1.
fn walk_round(net: &Net, r: u32) -> Vec<u32> {
    const FREE: u32 = u32::MAX;
    let (from, to) = net.reactions[r as usize];
    let (mut before, mut queue) = (vec![FREE; net.complexes.len()], vec![to]);
    before[to as usize] = to;
    let mut at = 0;
    while at < queue.len() && before[from as usize] == FREE {
        let c = queue[at];
        at += 1;
        for (y, z) in net.reactions.iter().filter(|(y, z)| *y == c || *z == c) {
            let other = y ^ z ^ c;
            if before[other as usize] == FREE && [c, other] != [to, from] {
                before[other as usize] = c;
                queue.push(other);
            }
        }
    }
    let step = |c: &u32| Some(before[*c as usize]).filter(|next| next != c);
    std::iter::successors(Some(from), step).map(|c| c + 1).collect()
}

pub fn regular(net: &Net, verdicts: &Verdicts, forest: &Forest) -> Answer<Regular> {
    if let Some((class, count)) = first_split(verdicts) {
        return Ok(Regular::Terminal(class, count));
    }
    let is_dependent = match &verdicts.dependent {
        Some(Ok(Positive::No(_))) => return Ok(Regular::Dependence),
        Some(Ok(Positive::Yes(_))) => true,
        _ => false,
    };
    let rooted = Rooted::new(net, forest);
    let is_rounded = rooted.rounded(net, forest);
    let is_cut = |r: &u32| {
        let (y, z) = net.reactions[*r as usize];
        let is_link = |c: u32, parent: u32| rooted.parent[c as usize] == parent && !is_rounded[c as usize];
        is_link(y, z) || is_link(z, y)
    };
    match terminal_pairs(net, verdicts).iter().find(|r| !is_cut(r)) {
        Some(r) => Ok(Regular::Cycle(r + 1, walk_round(net, *r))),
        None if is_dependent => Ok(Regular::Yes),
        None => Err(Gap::Rests(7)),
    }
}

/// The sums of a list over the terminal classes, in order of these classes.
pub fn gathered(verdicts: &Verdicts, g: &[i128]) -> Vec<i128> {
    let mut sums = vec![0; verdicts.exits.len()];
    if let Some(strong) = &verdicts.strong {
        strong.label.iter().zip(g).for_each(|(label, x)| sums[*label as usize - 1] += x);
    }
    sums.iter().zip(&verdicts.exits).filter(|(_, exit)| **exit == 0).map(|(sum, _)| *sum).collect()
}

/// Divides the vector by its common divisor, and turns it as the format asks.
fn normal(verdicts: &Verdicts, mut g: Vec<i128>) -> Vec<i128> {
    let divisor = g.iter().fold(0, |divisor, x| gcd_wide(divisor, x.unsigned_abs())) as i128;
    let is_turned = if verdicts.weak == Some(None) {
        g.iter().find(|x| **x != 0).is_some_and(|x| *x < 0)
    } else {
        gathered(verdicts, &g).iter().any(|sum| *sum < 0)
    };
    g.iter_mut().for_each(|x| *x /= if is_turned { -divisor } else { divisor });
    g
}

/// The complexes as columns, and the species and linkage classes as rows, with as many complexes as possible expressed
/// by rows.
fn space(net: &Net, verdicts: &Verdicts) -> Result<Dictionary, Wide> {
    let (size, species) = (net.complexes.len(), net.species.len());
    let mut made = Dictionary::new(size, (0..size as u32).collect(), species + verdicts.linkage.count as usize);
    for s in 0..species {
        made.push((size + s) as u32, 1, net.complexes.iter().map(|row| i64::from(row[s])));
    }
    for class in 1..=verdicts.linkage.count {
        let marks = verdicts.linkage.label.iter().map(|label| i64::from(*label == class));
        made.push((size + species) as u32 + class - 1, 1, marks);
    }
    made.eliminate()?;
    Ok(made)
}

/// The vector of the space that is not zero at this place of the basis.
fn vector_of(made: &Dictionary, place: usize) -> Result<Vec<i128>, Wide> {
    let (own, numbers) = made.column(place)?;
    let mut vector = vec![0; made.columns];
    vector[made.basis[place] as usize] = own;
    for (c, number) in made.rows.iter().zip(numbers).filter(|(c, _)| made.is_column(**c)) {
        vector[*c as usize] = number;
    }
    Ok(vector)
}

/// For each complex with a row, ascending, multipliers of the rows of the system.
fn ties(made: &Dictionary) -> Vec<Vec<i128>> {
    let mut rows: Vec<(u32, usize)> = made.rows.iter().enumerate().map(|(i, c)| (*c, i)).collect();
    rows.retain(|(c, _)| made.is_column(*c));
    rows.sort_unstable();
    let tie = |(_, i): &(u32, usize)| {
        let mut tie = vec![0; made.rows.len() + made.width - made.columns];
        for (c, entry) in made.basis.iter().zip(made.row(*i)).filter(|(c, _)| !made.is_column(**c)) {
            tie[*c as usize - made.columns] = i128::from(*entry);
        }
        let divisor = tie.iter().fold(0, |divisor, entry: &i128| gcd_wide(divisor, entry.unsigned_abs()));
        tie.iter_mut().for_each(|entry| *entry /= divisor as i128);
        tie
    };
    rows.iter().map(tie).collect()
}

/// The confluence vector of a regular network, with the ties that show it.
fn solved(net: &Net, verdicts: &Verdicts) -> Result<(Confluence, Vec<Vec<i128>>), Wide> {
    let mut made = space(net, verdicts)?;
    let free: Vec<usize> = (0..made.width).filter(|q| made.is_column(made.basis[*q])).collect();
    match free[..] {
        [] => Ok((Confluence::OnlyZero, ties(&made))),
        [q] => {
            let vector = normal(verdicts, vector_of(&made, q)?);
            let least = vector.iter().position(|x| *x != 0).unwrap() as u32;
            if let Some(p) = made.rows.iter().position(|c| *c == least) {
                made.exchange(p, q)?;
            }
            Ok((Confluence::Vector(vector), ties(&made)))
        }
        [q, r, ..] => {
            let vectors = [vector_of(&made, q)?, vector_of(&made, r)?];
            Ok((Confluence::Plane([made.basis[q] + 1, made.basis[r] + 1], vectors), Vec::new()))
        }
    }
}

pub fn confluence(net: &Net, verdicts: &Verdicts) -> (Answer<Confluence>, Vec<Vec<i128>>) {
    match &verdicts.regular {
        Some(Ok(Regular::Yes)) => {}
        Some(Ok(_)) => return (Ok(Confluence::NotRegular), Vec::new()),
        _ => return (Err(Gap::Rests(11)), Vec::new()),
    }
    match solved(net, verdicts) {
        Ok((confluence, ties)) => (Ok(confluence), ties),
        Err(wide) => {
            let (index, basis) = (wide.index + 1, wide.basis.iter().map(|c| c + 1).collect());
            (Err(Gap::Wide { system: 4, class: 0, index, basis }), Vec::new())
        }
    }
}
