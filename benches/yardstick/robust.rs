//! The hypotheses of robustness: the part document of a network.

use crate::answers::{Asked, Settings, Verdicts, solve};
use crate::certificate::{put, put_gap, put_graph, put_rank};
use crate::net::{Net, Row};
use crate::persist::Answer;

/// The species at which two complexes differ, if that is one alone.
fn difference(one: &Row, other: &Row, species: usize) -> Option<usize> {
    let mut differing = (0..species).filter(|s| one[*s] != other[*s]);
    differing.next().filter(|_| differing.next().is_none())
}

/// The least pair of complexes of no terminal class that differ at one species alone, after that species; all from 1.
fn pair(net: &Net, verdicts: &Verdicts) -> Option<[u32; 3]> {
    let strong = &verdicts.strong.as_ref().expect("question 2").label;
    let outside = |c: &usize| verdicts.exits[strong[*c] as usize - 1] > 0;
    let outside: Vec<usize> = (0..net.complexes.len()).filter(outside).collect();
    outside.iter().enumerate().find_map(|(at, c)| {
        outside[at + 1..].iter().find_map(|d| {
            let s = difference(&net.complexes[*c], &net.complexes[*d], net.species.len())?;
            Some([s, *c, *d].map(|place| place as u32 + 1))
        })
    })
}

/// The lines of the answer.
pub fn robust(net: &Net) -> Answer {
    let settings = Settings { asked: Asked::parse("1,2,5").expect("questions"), budget: 1, shows: true };
    let (verdicts, shown) = solve(net, settings);
    let mut lines = Vec::new();
    put_graph(net, &verdicts, &shown, &mut lines);
    let base = match verdicts.rank.as_ref().expect("question 5") {
        Ok(base) => base.len() as u32,
        Err(gap) => {
            put_gap("q5", gap, &mut lines);
            lines.extend_from_slice(b"rests\n");
            return Answer { lines, is_open: true };
        }
    };
    put(&mut lines, "q5", &[base]);
    shown.rank.iter().for_each(|rank| put_rank(rank, &mut lines));
    let deficiency = net.complexes.len() as u32 - verdicts.linkage.count - base;
    put(&mut lines, "line", &[u32::from(deficiency == 1)]);
    if deficiency != 1 {
        put(&mut lines, "number", &[deficiency]);
    } else if let Some(pair) = pair(net, &verdicts) {
        put(&mut lines, "yes", &pair);
    } else {
        lines.extend_from_slice(b"none\n");
    }
    Answer { lines, is_open: false }
}
