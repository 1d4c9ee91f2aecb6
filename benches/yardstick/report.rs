//! Writes the report of a network and its verdicts.

use crate::answers::{Answer, Gap, Verdicts};
use crate::concordance::Pair;
use crate::linear::Positive;
use crate::net::{Net, put_number, put_numbers};
use crate::regular::{Confluence, Regular};
use crate::signals::Signal;
use crate::theorems::One;

fn put(out: &mut Vec<u8>, words: &str) {
    out.extend_from_slice(words.as_bytes());
}

fn put_count(out: &mut Vec<u8>, before: &str, count: u32, after: &str) {
    put(out, before);
    put_number(out, i128::from(count));
    put(out, after);
}

/// The members of each class, in order: those of class k from place `starts[k - 1]` on.
fn members(label: &[u32], count: u32) -> (Vec<usize>, Vec<usize>) {
    let mut starts = vec![0; count as usize + 1];
    label.iter().for_each(|k| starts[*k as usize] += 1);
    for k in 0..count as usize {
        starts[k + 1] += starts[k];
    }
    let (mut next, mut members) = (starts.clone(), vec![0; label.len()]);
    for (c, k) in label.iter().enumerate() {
        members[next[*k as usize - 1]] = c;
        next[*k as usize - 1] += 1;
    }
    (starts, members)
}

fn put_complexes(net: &Net, members: impl Iterator<Item = usize>, out: &mut Vec<u8>) {
    for (shown, c) in members.enumerate() {
        if shown > 0 {
            put(out, "; ");
        }
        out.extend_from_slice(net.side(c));
    }
}

fn put_classes(
    net: &Net,
    title: &str,
    label: &[u32],
    count: u32,
    mark: impl Fn(u32) -> &'static str,
    out: &mut Vec<u8>,
) {
    let (starts, members) = members(label, count);
    for k in 1..=count {
        put_count(out, title, k, ": ");
        put_complexes(net, members[starts[k as usize - 1]..starts[k as usize]].iter().copied(), out);
        put(out, mark(k));
        out.push(b'\n');
    }
}

/// Yes, or no with the reaction that shows it.
fn put_reaction_shown(net: &Net, title: &str, shown: Option<u32>, out: &mut Vec<u8>) {
    put(out, title);
    match shown {
        None => put(out, ": yes\n"),
        Some(r) => {
            put_count(out, ": no\n  reaction ", r, ": ");
            net.put_reaction(r as usize - 1, out);
        }
    }
}

fn put_gap(gap: &Gap, out: &mut Vec<u8>) {
    match gap {
        Gap::Rests(question) => put_count(out, ": open, rests on Q", *question, "\n"),
        Gap::Budget(nodes) => put_count(out, ": open, budget ", *nodes, "\n"),
        Gap::Wide { system, class, index, basis } => {
            put_count(out, ": open, wide\n  system ", *system, "");
            if *class > 0 {
                put_count(out, " class ", *class, "");
            }
            put_count(out, "\n  index ", *index, "\n  basis:");
            put_numbers(out, basis);
        }
    }
}

fn put_positive(title: &str, yes: &str, answer: &Answer<Positive>, out: &mut Vec<u8>) {
    put(out, title);
    match answer {
        Err(gap) => put_gap(gap, out),
        Ok(Positive::Yes(vector)) => {
            put(out, ": yes\n  ");
            put(out, yes);
            put_numbers(out, vector);
        }
        Ok(Positive::No(multipliers)) => {
            put(out, ": no\n  multipliers:");
            put_numbers(out, multipliers);
        }
    }
}

fn put_one(one: &Answer<One>, out: &mut Vec<u8>) {
    put(out, "Q10 deficiency one theorem");
    match one {
        Err(gap) => put_gap(gap, out),
        Ok(One::Hold) => put(out, ": hypotheses hold\n"),
        Ok(One::Terminal(class, count)) => {
            put_count(out, ": hypotheses fail, class ", *class, " has ");
            put_count(out, "", *count, " terminal classes\n");
        }
        Ok(One::Class(class, number)) => {
            put_count(out, ": hypotheses fail, class ", *class, " has deficiency ");
            put_count(out, "", *number, "\n");
        }
        Ok(One::Sum(sum)) => put_count(out, ": hypotheses fail, class deficiencies sum to ", *sum, "\n"),
    }
}

fn put_list<T: Copy + Into<i128>>(title: &str, numbers: &[T], out: &mut Vec<u8>) {
    put(out, title);
    put_numbers(out, numbers);
}

fn put_regular(net: &Net, regular: &Answer<Regular>, out: &mut Vec<u8>) {
    put(out, "Q11 regular");
    match regular {
        Err(gap) => put_gap(gap, out),
        Ok(Regular::Yes) => put(out, ": yes\n"),
        Ok(Regular::Terminal(class, count)) => {
            put_count(out, ": no, class ", *class, " has ");
            put_count(out, "", *count, " terminal classes\n");
        }
        Ok(Regular::Dependence) => put(out, ": no, not positively dependent\n"),
        Ok(Regular::Cycle(r, walk)) => {
            put_count(out, ": no, a cycle in a terminal class\n  reaction ", *r, ", walk: ");
            put_complexes(net, walk.iter().map(|c| *c as usize - 1), out);
            out.push(b'\n');
        }
    }
}

fn put_confluence(confluence: &Answer<Confluence>, out: &mut Vec<u8>) {
    put(out, "Q12 confluence vector");
    match confluence {
        Err(gap) => put_gap(gap, out),
        Ok(Confluence::Vector(vector)) => put_list(": yes\n  vector:", vector, out),
        Ok(Confluence::NotRegular) => put(out, ": not applicable, not regular\n"),
        Ok(Confluence::OnlyZero) => put(out, ": not applicable, no vector but zero\n"),
        Ok(Confluence::Plane(_, [one, two])) => {
            put_list(": not applicable, two independent vectors\n  vector:", one, out);
            put_list("  vector:", two, out);
        }
    }
}

fn put_signal(signal: &Answer<Signal>, out: &mut Vec<u8>) {
    put(out, "Q13 signal");
    match signal {
        Err(gap) => put_gap(gap, out),
        Ok(Signal::No) => put(out, ": no\n"),
        Ok(Signal::NotApplicable) => put(out, ": not applicable\n"),
        Ok(Signal::Yes { turn, shelves, mu, m, .. }) => {
            put_list(": yes\n  turn:", &[*turn], out);
            put(out, "  shelves:");
            shelves.iter().for_each(|shelf| put(out, [" lower", " middle", " upper"][(shelf + 1) as usize]));
            put_list("\n  mu:", mu, out);
            put_list("  m:", &[*m], out);
        }
    }
}

fn put_concordant(net: &Net, title: &str, answer: &Answer<Option<Pair>>, out: &mut Vec<u8>) {
    put(out, title);
    match answer {
        Err(gap) => put_gap(gap, out),
        Ok(None) => put(out, ": yes\n"),
        Ok(Some(Pair { alpha, weights })) => {
            put_list(": no\n  sigma:", &net.combination(weights), out);
            put_list("  alpha:", alpha, out);
        }
    }
}

pub fn report(net: &Net, verdicts: &Verdicts, out: &mut Vec<u8>) {
    put_count(out, "crn report 1\nspecies ", net.species.len() as u32, ":");
    for name in &net.species {
        out.push(b' ');
        out.extend_from_slice(name);
    }
    put_count(out, "\ncomplexes ", net.complexes.len() as u32, ": ");
    put_complexes(net, 0..net.complexes.len(), out);
    put_count(out, "\nreactions ", net.reactions.len() as u32, "\n");
    put_count(out, "Q1 linkage classes: ", verdicts.linkage.count, "\n");
    put_classes(net, "  class ", &verdicts.linkage.label, verdicts.linkage.count, |_| "", out);
    if let Some(strong) = &verdicts.strong {
        let terminal = verdicts.exits.iter().filter(|exit| **exit == 0).count() as u32;
        put_count(out, "Q2 strong classes: ", strong.count, ", terminal ");
        put_count(out, "", terminal, "\n");
        let mark = |k: u32| if verdicts.exits[k as usize - 1] == 0 { " (terminal)" } else { "" };
        put_classes(net, "  strong ", &strong.label, strong.count, mark, out);
    }
    if let Some(shown) = verdicts.reversible {
        put_reaction_shown(net, "Q3 reversible", shown, out);
    }
    if let Some(shown) = verdicts.weak {
        put_reaction_shown(net, "Q4 weakly reversible", shown, out);
    }
    if let Some(rank) = &verdicts.rank {
        put(out, "Q5 rank");
        match rank {
            Err(gap) => put_gap(gap, out),
            Ok(base) => {
                put_count(out, ": ", base.len() as u32, "\n  independent reactions:");
                put_numbers(out, base);
            }
        }
    }
    if let Some(deficiency) = &verdicts.deficiency {
        put(out, "Q6 deficiency");
        match deficiency {
            Err(gap) => put_gap(gap, out),
            Ok((total, classes)) => {
                put_count(out, ": ", *total, ", classes");
                put_numbers(out, classes);
            }
        }
    }
    if let Some(dependent) = &verdicts.dependent {
        put_positive("Q7 positively dependent", "positive combination:", dependent, out);
    }
    if let Some(conservative) = &verdicts.conservative {
        put_positive("Q8 conservative", "positive law:", conservative, out);
    }
    if let Some(zero) = &verdicts.zero {
        put(out, "Q9 deficiency zero theorem");
        match zero {
            Err(gap) => put_gap(gap, out),
            Ok(0) if verdicts.weak == Some(None) => put(out, ": hypotheses hold, weakly reversible\n"),
            Ok(0) => put(out, ": hypotheses hold, not weakly reversible\n"),
            Ok(number) => put_count(out, ": hypotheses fail, deficiency ", *number, "\n"),
        }
    }
    if let Some(one) = &verdicts.one {
        put_one(one, out);
    }
    if let Some(regular) = &verdicts.regular {
        put_regular(net, regular, out);
    }
    if let Some(confluence) = &verdicts.confluence {
        put_confluence(confluence, out);
    }
    if let Some(signal) = &verdicts.signal {
        put_signal(signal, out);
    }
    for (title, answer) in ["Q14 concordant", "Q15 strongly concordant"].iter().zip(&verdicts.concordant) {
        if let Some(answer) = answer {
            put_concordant(net, title, answer, out);
        }
    }
    put_count(out, "open: ", verdicts.open(), "\n");
}
