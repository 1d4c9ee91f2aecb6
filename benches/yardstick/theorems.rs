//! The hypotheses of the two deficiency theorems. Both follow from earlier verdicts.

use crate::answers::{Answer, Gap, Verdicts};

pub enum One {
    Hold,
    /// A linkage class with so many terminal classes.
    Terminal(u32, u32),
    /// A linkage class with this deficiency.
    Class(u32, u32),
    /// What the class deficiencies add up to.
    Sum(u32),
}

/// The deficiency: 0 where the hypotheses of the first theorem hold.
pub fn zero(verdicts: &Verdicts) -> Answer<u32> {
    let complexes = verdicts.linkage.label.len() as u32;
    match &verdicts.rank {
        Some(Ok(base)) => Ok(complexes - verdicts.linkage.count - base.len() as u32),
        _ => Err(Gap::Rests(5)),
    }
}

/// The least linkage class with several terminal classes, and how many it has.
pub fn first_split(verdicts: &Verdicts) -> Option<(u32, u32)> {
    let strong = verdicts.strong.as_ref()?;
    let mut counts = vec![0; verdicts.linkage.count as usize];
    let mut is_met = vec![false; strong.count as usize];
    for (label, class) in strong.label.iter().zip(&verdicts.linkage.label) {
        let place = *label as usize - 1;
        if !std::mem::replace(&mut is_met[place], true) && verdicts.exits[place] == 0 {
            counts[*class as usize - 1] += 1;
        }
    }
    let class = counts.iter().position(|count| *count > 1)?;
    Some((class as u32 + 1, counts[class]))
}

pub fn one(verdicts: &Verdicts) -> Answer<One> {
    if let Some((class, count)) = first_split(verdicts) {
        return Ok(One::Terminal(class, count));
    }
    let Some(Ok((total, classes))) = &verdicts.deficiency else { return Err(Gap::Rests(6)) };
    if let Some(class) = classes.iter().position(|number| *number > 1) {
        return Ok(One::Class(class as u32 + 1, classes[class]));
    }
    let sum = classes.iter().sum();
    Ok(if sum == *total { One::Hold } else { One::Sum(sum) })
}
