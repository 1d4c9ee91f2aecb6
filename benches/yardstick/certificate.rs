//! Writes a certificate in version 2.

use crate::answers::{Answer, Gap, Shown, Verdicts};
use crate::concordance::Pair;
use crate::graph::Forest;
use crate::linear::{Positive, Rank};
use crate::net::{Net, Quickly, put_number, put_numbers};
use crate::regular::{Confluence, Regular};
use crate::search::{Is, Tree};
use crate::signals::Signal;
use crate::space::Named;
use crate::theorems::One;
use std::borrow::Cow;
use std::collections::HashMap;

pub fn put<T: Copy + Into<i128>>(out: &mut Vec<u8>, words: &str, numbers: &[T]) {
    out.extend_from_slice(words.as_bytes());
    put_numbers(out, numbers);
}

pub fn put_gap(question: &str, gap: &Gap, out: &mut Vec<u8>) {
    out.extend_from_slice(question.as_bytes());
    match gap {
        Gap::Rests(question) => put(out, " open rests", &[*question]),
        Gap::Budget(nodes) => put(out, " open budget", &[*nodes]),
        Gap::Wide { system, class, index, basis } => {
            out.extend_from_slice(b" open wide");
            for number in [system, class, index] {
                out.push(b' ');
                put_number(out, i128::from(*number));
            }
            put_numbers(out, basis);
        }
    }
}

pub fn put_rank(rank: &Rank, out: &mut Vec<u8>) {
    put(out, "base", &rank.base());
    let mut dual = Vec::new();
    for i in 0..rank.rank() as usize {
        rank.dual(i, &mut dual);
        put(out, "dual", &dual);
    }
    let mut comb = Vec::new();
    for (_, place) in rank.others() {
        // That all combinations fit was tested before the verdict.
        if rank.comb(place, &mut comb).is_ok() {
            put(out, "comb", &comb);
        }
    }
}

fn put_positive(question: &str, answer: &Answer<Positive>, out: &mut Vec<u8>) {
    let (verdict, record, numbers) = match answer {
        Err(gap) => return put_gap(question, gap, out),
        Ok(Positive::Yes(vector)) => (" yes\n", "vec", vector),
        Ok(Positive::No(multipliers)) => (" no\n", "cut", multipliers),
    };
    out.extend_from_slice(question.as_bytes());
    out.extend_from_slice(verdict.as_bytes());
    put(out, record, numbers);
}

pub fn put_graph(net: &Net, verdicts: &Verdicts, shown: &Shown, out: &mut Vec<u8>) {
    put(out, "q1", &[verdicts.linkage.count]);
    put(out, "label", &verdicts.linkage.label);
    put(out, "up", &shown.forest.up);
    put(out, "depth", &shown.forest.depth);
    if let Some(strong) = &verdicts.strong {
        let terminal = verdicts.exits.iter().filter(|exit| **exit == 0).count() as u32;
        put(out, "q2", &[strong.count, terminal]);
        put(out, "label", &strong.label);
        let Forest { up, depth } = shown.strong_tree(net, strong, false);
        put(out, "from", &up);
        put(out, "fromdepth", &depth);
        let Forest { up, depth } = shown.strong_tree(net, strong, true);
        put(out, "to", &up);
        put(out, "todepth", &depth);
        put(out, "level", &shown.levels);
        put(out, "exit", &verdicts.exits);
    }
    match verdicts.reversible {
        None => {}
        Some(Some(reaction)) => put(out, "q3 no", &[reaction]),
        Some(None) => put(out, "q3 yes\nback", &shown.back),
    }
    match verdicts.weak {
        None => {}
        Some(Some(reaction)) => put(out, "q4 no", &[reaction]),
        Some(None) => put::<u32>(out, "q4 yes", &[]),
    }
}

/// The first lists of multipliers, each once, in the order of the leaves.
struct Share<'t> {
    lists: Vec<Cow<'t, [i128]>>,
    /// For each tree and each of its parts, for each cut and for its negative, the number of its list.
    names: Vec<[Vec<Option<u32>>; 2]>,
}

const MAX_SHARED: usize = 4_096;

fn list_of(tree: &Tree, is_b: bool, (name, is_negated): Named) -> Cow<'_, [i128]> {
    let list = &if is_b { &tree.lists_b } else { &tree.lists_a }[name as usize];
    if is_negated { list.iter().map(|x| -x).collect() } else { Cow::Borrowed(list) }
}

impl<'t> Share<'t> {
    fn new(trees: impl Iterator<Item = &'t Tree>) -> Share<'t> {
        let mut numbers: HashMap<Cow<'t, [i128]>, u32, Quickly> = HashMap::default();
        let mut share = Share { lists: Vec::new(), names: Vec::new() };
        for tree in trees {
            let unseen = |lists: &Vec<_>| vec![None; 2 * lists.len()];
            let mut is_seen = [vec![false; 2 * tree.lists_a.len()], vec![false; 2 * tree.lists_b.len()]];
            let mut names = [unseen(&tree.lists_a), unseen(&tree.lists_b)];
            for node in &tree.nodes {
                let (is_b, named) = match node.is() {
                    Is::CutA(named) => (false, named),
                    Is::CutB(named) => (true, named),
                    _ => continue,
                };
                let place = named.0 as usize * 2 + usize::from(named.1);
                if std::mem::replace(&mut is_seen[usize::from(is_b)][place], true) {
                    continue;
                }
                let list = list_of(tree, is_b, named);
                let next = share.lists.len() as u32 + 1;
                names[usize::from(is_b)][place] = numbers.get(&list).copied().or_else(|| {
                    let is_room = share.lists.len() < MAX_SHARED;
                    is_room.then(|| {
                        share.lists.push(list.clone());
                        numbers.insert(list, next);
                        next
                    })
                });
            }
            share.names.push(names);
        }
        share
    }

    fn put_tree(&self, tree: &Tree, place: usize, out: &mut Vec<u8>) {
        for node in &tree.nodes {
            let (is_b, named) = match node.is() {
                Is::Split => {
                    out.extend_from_slice(b"split\n");
                    continue;
                }
                Is::Flat => {
                    out.extend_from_slice(b"flat\n");
                    continue;
                }
                Is::CutA(named) => (false, named),
                Is::CutB(named) => (true, named),
            };
            match self.names[place][usize::from(is_b)][named.0 as usize * 2 + usize::from(named.1)] {
                Some(name) => put(out, if is_b { "refb" } else { "refa" }, &[name]),
                None => put(out, if is_b { "cutb" } else { "cuta" }, &list_of(tree, is_b, named)),
            }
        }
    }
}

fn put_regular(verdicts: &Verdicts, shown: &Shown, out: &mut Vec<u8>) {
    match &verdicts.regular {
        None => {}
        Some(Err(gap)) => put_gap("section confluence\nq11", gap, out),
        Some(Ok(Regular::Terminal(class, count))) => put(out, "section confluence\nq11 no terminal", &[*class, *count]),
        Some(Ok(Regular::Dependence)) => put::<u32>(out, "section confluence\nq11 no dependence", &[]),
        Some(Ok(Regular::Cycle(reaction, walk))) => {
            put(out, "section confluence\nq11 no cycle", &[*reaction]);
            put(out, "walk", walk);
        }
        Some(Ok(Regular::Yes)) => {
            put::<u32>(out, "section confluence\nq11 yes", &[]);
            for (r, side) in shown.pairs.iter().zip(&shown.sides) {
                out.extend_from_slice(b"side ");
                put_number(out, i128::from(*r) + 1);
                put_numbers(out, side);
            }
        }
    }
}

fn put_confluence(verdicts: &Verdicts, shown: &Shown, out: &mut Vec<u8>) {
    match &verdicts.confluence {
        None => {}
        Some(Err(gap)) => put_gap("q12", gap, out),
        Some(Ok(Confluence::NotRegular)) => put::<u32>(out, "q12 none regular", &[]),
        Some(Ok(Confluence::OnlyZero)) => put::<u32>(out, "q12 none zero", &[]),
        Some(Ok(Confluence::Vector(vector))) => put(out, "q12 yes\nvec", vector),
        Some(Ok(Confluence::Plane(places, [one, two]))) => {
            put(out, "q12 none plane", places);
            put(out, "vec", one);
            put(out, "vec", two);
        }
    }
    shown.ties.iter().for_each(|tie| put(out, "tie", tie));
}

/// The answers to questions 13 to 15, whose trees share lists.
fn put_signs(verdicts: &Verdicts, shown: &Shown, share: &Share, out: &mut Vec<u8>) {
    match &verdicts.signal {
        None => {}
        Some(Err(gap)) => put_gap("q13", gap, out),
        Some(Ok(Signal::NotApplicable)) => put::<u32>(out, "q13 none", &[]),
        Some(Ok(Signal::No)) => {
            put::<u32>(out, "q13 no", &[]);
            shown.trees[0].iter().enumerate().for_each(|(place, tree)| share.put_tree(tree, place, out));
        }
        Some(Ok(Signal::Yes { turn, shelves, mu, m, weights })) => {
            put(out, "q13 yes", &[*turn]);
            put(out, "shelves", shelves);
            put(out, "mu", mu);
            put(out, "m", &[*m]);
            put(out, "weights", weights);
        }
    }
    let mut place = shown.trees[0].len();
    for (k, answer) in verdicts.concordant.iter().enumerate() {
        let Some(answer) = answer else { continue };
        if k == 0 {
            out.extend_from_slice(b"section concordance\n");
        }
        let question = ["q14", "q15"][k];
        if let Err(gap) = answer {
            put_gap(question, gap, out);
            continue;
        }
        out.extend_from_slice(question.as_bytes());
        if let Ok(Some(Pair { alpha, weights })) = answer {
            put(out, " no\nalpha", alpha);
            put(out, "weights", weights);
        } else {
            out.extend_from_slice(b" yes\n");
            shown.trees[k + 1].iter().for_each(|tree| share.put_tree(tree, place, out));
            place += 1;
        }
    }
}

pub fn certificate(net: &Net, verdicts: &Verdicts, shown: &Shown, out: &mut Vec<u8>) {
    put(out, "crn certificate 2\nnetwork", &[net.reactions.len() as u32]);
    (0..net.reactions.len()).for_each(|r| net.put_reaction(r, out));
    let share = Share::new(shown.trees.iter().flatten());
    put(out, "vectors", &[share.lists.len() as u32]);
    share.lists.iter().for_each(|list| put(out, "vector", list));
    out.extend_from_slice(b"section graph\n");
    put_graph(net, verdicts, shown, out);
    match &verdicts.rank {
        None => {}
        Some(Err(gap)) => put_gap("section rank\nq5", gap, out),
        Some(Ok(base)) => {
            put(out, "section rank\nq5", &[base.len() as u32]);
            shown.rank.iter().for_each(|rank| put_rank(rank, out));
        }
    }
    match &verdicts.deficiency {
        None => {}
        Some(Err(gap)) => put_gap("q6", gap, out),
        Some(Ok((total, classes))) => {
            put(out, "q6", &[&[*total], classes.as_slice()].concat());
            // One linkage class has the rank of the whole.
            let ranks = if shown.ranks.is_empty() { shown.rank.as_slice() } else { &shown.ranks };
            ranks.iter().for_each(|rank| put_rank(rank, out));
        }
    }
    if let Some(dependent) = &verdicts.dependent {
        put_positive("section dependence\nq7", dependent, out);
    }
    if let Some(conservative) = &verdicts.conservative {
        put_positive("q8", conservative, out);
    }
    match &verdicts.zero {
        None => {}
        Some(Err(gap)) => put_gap("section theorems\nq9", gap, out),
        Some(Ok(0)) => put(out, "section theorems\nq9 yes", &[u32::from(verdicts.weak == Some(None))]),
        Some(Ok(number)) => put(out, "section theorems\nq9 no", &[*number]),
    }
    match &verdicts.one {
        None => {}
        Some(Err(gap)) => put_gap("q10", gap, out),
        Some(Ok(One::Hold)) => put::<u32>(out, "q10 yes", &[]),
        Some(Ok(One::Terminal(class, count))) => put(out, "q10 no terminal", &[*class, *count]),
        Some(Ok(One::Class(class, number))) => put(out, "q10 no class", &[*class, *number]),
        Some(Ok(One::Sum(sum))) => put(out, "q10 no sum", &[*sum]),
    }
    put_regular(verdicts, shown, out);
    put_confluence(verdicts, shown, out);
    put_signs(verdicts, shown, &share, out);
    out.extend_from_slice(b"end\n");
}
