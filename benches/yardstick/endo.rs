//! Endotactic networks: the part document of a network, by a search for a slope against each reaction.

use crate::certificate::put;
use crate::frame::Frame;
use crate::linear::Dictionary;
use crate::net::Net;
use crate::persist::Answer;
use crate::search::{End, Is, Problem, Search, Tree, WideIn};
use crate::signs::{Kinds, Mask, Signs};
use crate::space::Part;

/// The species, twice the reactions and the reactants of a network that is tested at all.
const MAX_COORDINATES: usize = 400;

/// The slopes against a reaction. The first choice is the sign of the rise along it, which is never minus: a slope that goes with
/// plus is turned. The others are the signs of the heights of the other reactants above its own.
/// The coordinates are the species, the rises along the reactions, and these heights.
struct Slopes<'n> {
    net: &'n Net,
    reaction: usize,
    others: Vec<u32>,
    /// For each of these the coordinates of the rises along the reactions with this reactant.
    rises: Vec<Vec<usize>>,
}

impl Slopes<'_> {
    fn new<'n>(net: &'n Net, reactants: &[u32], reaction: usize) -> Slopes<'n> {
        let own = net.reactions[reaction].0;
        let others: Vec<u32> = reactants.iter().copied().filter(|c| *c != own).collect();
        let rises_of = |c: &u32| {
            let reactions = net.reactions.iter().enumerate().filter(|(_, (y, _))| y == c);
            reactions.map(|(q, _)| net.species.len() + q).collect()
        };
        let rises = others.iter().map(rises_of).collect();
        Slopes { net, reaction, others, rises }
    }

    fn rise(&self) -> usize {
        self.net.species.len() + self.reaction
    }

    /// The height of the other reactant that this level chooses.
    fn height(&self, level: usize) -> usize {
        self.net.species.len() + self.net.reactions.len() + level - 2
    }

    fn dictionary(&self) -> Dictionary {
        let (net, species) = (self.net, self.net.species.len());
        let first = species + net.reactions.len();
        let mut made = Dictionary::new(species, (0..species as u32).collect(), net.reactions.len() + self.others.len());
        (0..net.reactions.len()).for_each(|q| made.push((species + q) as u32, 1, net.vector(q)));
        let own = &net.complexes[net.reactions[self.reaction].0 as usize];
        for (k, c) in self.others.iter().enumerate() {
            let above = net.complexes[*c as usize].iter().zip(own).map(|(a, b)| i64::from(*a) - i64::from(*b));
            made.push((first + k) as u32, 1, above.take(species));
        }
        made
    }

    fn weak<const W: usize>(&self) -> Mask<W> {
        let mut weak = Mask::NONE;
        self.rises.iter().flatten().for_each(|c| weak.add(*c));
        weak
    }

    /// A place among the coordinates of the document, which has the falls after the rises.
    fn named(&self, c: u32) -> u32 {
        let first = (self.net.species.len() + self.net.reactions.len()) as u32;
        if c > first { c + self.net.reactions.len() as u32 } else { c }
    }
}

impl<const W: usize> Problem<W> for Slopes<'_> {
    fn length(&self) -> usize {
        1 + self.others.len()
    }

    fn settled_a(&self) -> Vec<Mask<W>> {
        let mut settled = vec![Mask::NONE; self.others.len() + 2];
        settled[1].add(self.rise());
        for (k, rises) in self.rises.iter().enumerate() {
            settled[k + 2].add(self.height(k + 2));
            rises.iter().for_each(|c| settled[k + 2].add(*c));
        }
        settled
    }

    fn settled_b(&self) -> Vec<Mask<1>> {
        vec![Mask::NONE; self.others.len() + 2]
    }

    fn gained_a(&self, prefix: &[i8], _: &Kinds<1>) -> Kinds<W> {
        let mut gained = Kinds::FREE;
        match prefix {
            [] => {}
            [first] => gained.put(self.rise(), *first),
            [.., last] => {
                gained.put(self.height(prefix.len()), *last);
                if *last == 1 {
                    self.rises[prefix.len() - 2].iter().for_each(|c| gained.plus.add(*c));
                }
            }
        }
        gained
    }

    fn gained_b(&self, _: &[i8]) -> Kinds<1> {
        Kinds::FREE
    }

    fn closed(&self, prefix: &[i8], _: &Kinds<1>) -> bool {
        prefix.first() == Some(&0)
    }

    fn dual(&self, _: &Net, _: &[i128]) -> Signs<W> {
        unreachable!("trees of slopes are not read")
    }
}

fn put_tree(tree: &Tree, reactions: usize, lines: &mut Vec<u8>) {
    let mut written: Vec<[Option<Vec<u8>>; 2]> = vec![[None, None]; tree.lists_a.len()];
    for node in &tree.nodes {
        match node.is() {
            Is::Split => lines.extend_from_slice(b"split\n"),
            Is::Flat => lines.extend_from_slice(b"flat\n"),
            Is::CutA((name, is_negated)) => {
                let line = written[name as usize][usize::from(is_negated)].get_or_insert_with(|| {
                    let (rises, heights) = tree.lists_a[name as usize].split_at(reactions);
                    let sign = if is_negated { -1 } else { 1 };
                    let falls = std::iter::repeat_n(&0, reactions);
                    let numbers: Vec<i128> = rises.iter().chain(falls).chain(heights).map(|x| sign * x).collect();
                    let mut line = Vec::new();
                    put(&mut line, "cuta", &numbers);
                    line
                });
                lines.extend_from_slice(line);
            }
            Is::CutB(_) => unreachable!("part B asks for nothing"),
        }
    }
}

/// How the search of one reaction ends, with what is left of the budget.
fn search<const W: usize>(slopes: &Slopes, budget: u32) -> (Result<End, WideIn>, u32) {
    let species = slopes.net.species.len();
    let settled = Problem::<W>::settled_a(slopes);
    let a = Part::weak(slopes.dictionary(), Frame::All(species), settled, slopes.weak());
    let b = Part::new(Dictionary::new(0, Vec::new(), 0), Frame::All(0), Problem::<W>::settled_b(slopes));
    let mut search = Search::<_, W, true>::new(slopes, a, b, (species, 0), true);
    let end = search.run(budget);
    (end, budget - search.work().visits as u32)
}

/// The lines of the answer with this budget.
pub fn endo(net: &Net, budget: u32) -> Answer {
    let mut reactants: Vec<u32> = net.reactions.iter().map(|(y, _)| *y).collect();
    reactants.sort_unstable();
    reactants.dedup();
    let reactions = net.reactions.len();
    if net.species.len() + 2 * reactions + reactants.len() > MAX_COORDINATES {
        return Answer { lines: b"large\n".to_vec(), is_open: true };
    }
    let (mut lines, mut left) = (b"yes\n".to_vec(), budget);
    for reaction in 0..reactions {
        let slopes = Slopes::new(net, &reactants, reaction);
        let (end, rest) = match net.species.len() + reactions + reactants.len() {
            ..=65 => search::<1>(&slopes, left),
            ..=129 => search::<2>(&slopes, left),
            ..=257 => search::<4>(&slopes, left),
            _ => search::<5>(&slopes, left),
        };
        left = rest;
        let number = reaction as u32 + 1;
        let is_open = match end {
            Ok(End::Refuted(tree)) => {
                put_tree(&tree, reactions, &mut lines);
                continue;
            }
            Ok(End::Found(_, slope, _)) => {
                lines.clear();
                put(&mut lines, "no", &[number]);
                put(&mut lines, "slope", &slope.iter().map(|x| -x).collect::<Vec<i128>>());
                false
            }
            Ok(End::Spent) => {
                lines.clear();
                put(&mut lines, "spent", &[number, budget]);
                true
            }
            Err(WideIn { index, basis, .. }) => {
                lines.clear();
                let named = [index].into_iter().chain(basis).map(|c| slopes.named(c));
                put(&mut lines, "wide", &[number].into_iter().chain(named).collect::<Vec<u32>>());
                true
            }
        };
        return Answer { lines, is_open };
    }
    Answer { lines, is_open: false }
}
