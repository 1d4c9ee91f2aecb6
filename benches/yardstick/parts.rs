//! The finest independent decomposition of the reactions: the part document of a network.

use crate::answers::{Asked, Gap, Settings, solve};
use crate::certificate::{put, put_rank};
use crate::linear::Rank;
use crate::net::Net;
use crate::persist::Answer;
use crate::signs::Mask;

/// A set of reactions.
type Set = Mask<4>;

/// For each reaction those that it is tied to: one combines the other, which is in the base.
fn ties(rank: &Rank, reactions: usize) -> Vec<Set> {
    let mut ties = vec![Set::NONE; reactions];
    for (reaction, place) in rank.others() {
        for (member, row) in &rank.base {
            if rank.dictionary.entry(*row, place) != 0 {
                ties[reaction as usize].add(*member as usize);
                ties[*member as usize].add(reaction as usize);
            }
        }
    }
    ties
}

/// The lines of the answer.
pub fn parts(net: &Net) -> Answer {
    let settings = Settings { asked: Asked::parse("1,5").expect("questions"), budget: 1, shows: true };
    let (verdicts, shown) = solve(net, settings);
    let mut lines = Vec::new();
    if let Some(Err(Gap::Wide { index, basis, .. })) = &verdicts.rank {
        put(&mut lines, "wide", &[&[*index], basis.as_slice()].concat());
        return Answer { lines, is_open: true };
    }
    let (rank, reactions) = (shown.rank.as_ref().expect("a rank that is not open"), net.reactions.len());
    put(&mut lines, "rank", &[rank.rank()]);
    put_rank(rank, &mut lines);
    let (ties, mut unmet) = (ties(rank, reactions), Set::NONE);
    (0..reactions).for_each(|r| unmet.add(r));
    let (mut label, mut up, mut depth) = (vec![0u32; reactions], vec![0u32; reactions], vec![0u32; reactions]);
    let (mut count, mut queue) = (0, Vec::with_capacity(reactions));
    for first in 0..reactions {
        if !unmet.has(first) {
            continue;
        }
        count += 1;
        let mut at = queue.len();
        queue.push(first);
        unmet.0[first / 64] &= !(1 << (first % 64));
        label[first] = count;
        while let Some(r) = queue.get(at).copied() {
            at += 1;
            for q in ties[r].and(&unmet).places() {
                (label[q], up[q], depth[q]) = (count, r as u32 + 1, depth[r] + 1);
                queue.push(q);
            }
            unmet = unmet.without(&ties[r]);
        }
    }
    put(&mut lines, "label", &label);
    put(&mut lines, "up", &up);
    put(&mut lines, "depth", &depth);
    Answer { lines, is_open: false }
}
