//! The questions, their verdicts, and how a network is solved.

use crate::concordance::{Pair, concordant};
use crate::frame::Base;
use crate::graph::{Classes, Forest, Links, Strong, linkage, reverses, strong, strong_tree};
use crate::linear::{Positive, Rank, Wide};
use crate::net::Net;
use crate::regular::{Confluence, Regular, Rooted, confluence, regular, terminal_pairs};
use crate::search::{Tree, Work};
use crate::signals::{Linear, Sides, Signal, signal};
use crate::theorems::{One, one, zero};

/// How many questions there are.
pub const QUESTIONS: u32 = 15;

/// The questions that others need.
const NEEDS: [(u32, &[u32]); 9] = [
    (3, &[1]),
    (4, &[2]),
    (6, &[5]),
    (9, &[4, 5]),
    (10, &[2, 6]),
    (11, &[2, 7]),
    (12, &[4, 11]),
    (13, &[12]),
    (2, &[1]),
];

/// The questions that are asked: one bit each. The first always is.
#[derive(Clone, Copy)]
pub struct Asked(u32);

impl Asked {
    pub const ALL: Asked = Asked((1 << QUESTIONS) - 1);

    /// Numbers joined by commas, ascending, with those that they need.
    pub fn parse(words: &str) -> Option<Asked> {
        let mut asked = Asked(0);
        for word in words.split(',') {
            let question = word.parse().ok().filter(|question| (1..=QUESTIONS).contains(question))?;
            asked.0 |= 1 << (question - 1);
        }
        let is_met = |(question, needs): &(u32, &[u32])| !asked.has(*question) || needs.iter().all(|k| asked.has(*k));
        (asked.has(1) && NEEDS.iter().all(is_met)).then_some(asked)
    }

    pub fn has(self, question: u32) -> bool {
        self.0 >> (question - 1) & 1 == 1
    }
}

#[derive(Clone)]
pub enum Gap {
    Wide { system: u32, class: u32, index: u32, basis: Vec<u32> },
    Budget(u32),
    Rests(u32),
}

pub type Answer<T> = Result<T, Gap>;

/// The verdicts. A question that is not asked has none.
pub struct Verdicts {
    pub linkage: Classes,
    pub strong: Option<Classes>,
    /// For each strong class a reaction that leaves it, or 0.
    pub exits: Vec<u32>,
    /// A reaction that shows a no.
    pub reversible: Option<Option<u32>>,
    pub weak: Option<Option<u32>>,
    /// The base.
    pub rank: Option<Answer<Vec<u32>>>,
    pub deficiency: Option<Answer<(u32, Vec<u32>)>>,
    pub dependent: Option<Answer<Positive>>,
    pub conservative: Option<Answer<Positive>>,
    /// The deficiency again.
    pub zero: Option<Answer<u32>>,
    pub one: Option<Answer<One>>,
    pub regular: Option<Answer<Regular>>,
    pub confluence: Option<Answer<Confluence>>,
    pub signal: Option<Answer<Signal>>,
    /// Concordant and strongly concordant; or what shows a no.
    pub concordant: [Option<Answer<Option<Pair>>>; 2],
}

impl Verdicts {
    pub fn new() -> Verdicts {
        Verdicts {
            linkage: Classes::default(),
            strong: None,
            exits: Vec::new(),
            reversible: None,
            weak: None,
            rank: None,
            deficiency: None,
            dependent: None,
            conservative: None,
            zero: None,
            one: None,
            regular: None,
            confluence: None,
            signal: None,
            concordant: [None, None],
        }
    }

    pub fn open(&self) -> u32 {
        let is_open = [
            matches!(self.rank, Some(Err(_))),
            matches!(self.deficiency, Some(Err(_))),
            matches!(self.dependent, Some(Err(_))),
            matches!(self.conservative, Some(Err(_))),
            matches!(self.zero, Some(Err(_))),
            matches!(self.one, Some(Err(_))),
            matches!(self.regular, Some(Err(_))),
            matches!(self.confluence, Some(Err(_))),
            matches!(self.signal, Some(Err(_))),
            matches!(self.concordant[0], Some(Err(_))),
            matches!(self.concordant[1], Some(Err(_))),
        ];
        is_open.iter().filter(|open| **open).count() as u32
    }
}

/// What shows the verdicts, but for the trees of strong classes, which only a certificate needs.
pub struct Shown {
    pub links: Links,
    pub forest: Forest,
    pub levels: Vec<u32>,
    pub back: Vec<u32>,
    pub rank: Option<Rank>,
    /// For each linkage class.
    pub ranks: Vec<Rank>,
    /// For each linked pair within a terminal class its reaction, from 0, and the complexes on the side of the product.
    pub pairs: Vec<u32>,
    pub sides: Vec<Vec<u8>>,
    pub ties: Vec<Vec<i128>>,
    /// The trees of questions 13 to 15.
    pub trees: [Vec<Tree>; 3],
    pub work: Work,
}

impl Shown {
    pub fn strong_tree(&self, net: &Net, classes: &Classes, backwards: bool) -> Forest {
        strong_tree(net, &self.links, classes, backwards)
    }
}

/// The members of each linkage class.
pub fn class_members(net: &Net, linkage: &Classes) -> Vec<Vec<u32>> {
    let mut members = vec![Vec::new(); linkage.count as usize];
    for (r, (y, _)) in net.reactions.iter().enumerate() {
        members[linkage.label[*y as usize] as usize - 1].push(r as u32);
    }
    members
}

/// How the questions are answered.
#[derive(Clone, Copy)]
pub struct Settings {
    pub asked: Asked,
    pub budget: u32,
    /// Whether the trees are kept.
    pub shows: bool,
}

pub fn solve(net: &Net, settings: Settings) -> (Verdicts, Shown) {
    let (links, asked) = (Links::new(net), settings.asked);
    let mut verdicts = Verdicts::new();
    let (classes, forest) = linkage(net, &links);
    verdicts.linkage = classes;
    let (levels, back, ranks, ties, trees) = (Vec::new(), Vec::new(), Vec::new(), Vec::new(), Default::default());
    let (pairs, sides) = (Vec::new(), Vec::new());
    let mut shown = Shown { links, forest, levels, back, rank: None, ranks, pairs, sides, ties, trees, work: Work::default() };
    if asked.has(2) {
        let Strong { classes, exits, levels } = strong(net, &shown.links);
        (verdicts.strong, verdicts.exits, shown.levels) = (Some(classes), exits, levels);
    }
    if asked.has(3) {
        match reverses(net, &shown.links) {
            Ok(back) => (verdicts.reversible, shown.back) = (Some(None), back),
            Err(reaction) => verdicts.reversible = Some(Some(reaction)),
        }
    }
    if asked.has(4) {
        verdicts.weak = Some(verdicts.exits.iter().copied().find(|exit| *exit > 0));
    }
    let rank = (5..=QUESTIONS).any(|question| asked.has(question)).then(|| {
        let rank = Rank::new(net, (0..net.reactions.len() as u32).collect());
        rank.and_then(|rank| rank.fits().map(|()| rank))
    });
    if let Some(rank) = &rank {
        solve_linear(net, asked, rank, &mut verdicts, &mut shown);
    }
    verdicts.zero = asked.has(9).then(|| zero(&verdicts));
    verdicts.one = asked.has(10).then(|| one(&verdicts));
    if asked.has(11) {
        solve_regular(net, &mut verdicts, &mut shown);
    }
    if asked.has(12) {
        let (confluence, ties) = confluence(net, &verdicts);
        (verdicts.confluence, shown.ties) = (Some(confluence), ties);
    }
    if let Some(rank) = rank {
        solve_signs(net, settings, rank.as_ref(), &mut verdicts, &mut shown);
        shown.rank = rank.ok();
    }
    (verdicts, shown)
}

fn solve_regular(net: &Net, verdicts: &mut Verdicts, shown: &mut Shown) {
    let answer = regular(net, verdicts, &shown.forest);
    if let Ok(Regular::Yes) = answer {
        let rooted = Rooted::new(net, &shown.forest);
        shown.pairs = terminal_pairs(net, verdicts);
        for r in &shown.pairs {
            let mut side = Vec::new();
            rooted.side(net, &verdicts.linkage.label, *r, &mut side);
            shown.sides.push(side);
        }
    }
    verdicts.regular = Some(answer);
}

fn solve_signs(net: &Net, settings: Settings, rank: Result<&Rank, &Wide>, verdicts: &mut Verdicts, shown: &mut Shown) {
    let Settings { asked, budget, shows } = settings;
    if !(13..=15).any(|question| asked.has(question)) {
        return;
    }
    let based = rank.map(|rank| (rank, Base::new(net, rank))).map_err(|wide| {
        let (index, basis) = (wide.index + 1, wide.basis.iter().map(|c| c + 1).collect());
        Gap::Wide { system: 2, class: 0, index, basis }
    });
    let linear = || based.as_ref().map(|(rank, base)| Linear { rank, base }).map_err(Gap::clone);
    if asked.has(13) {
        let sides = Sides { pairs: &shown.pairs, marks: &shown.sides };
        let (answer, trees, work) = signal(net, verdicts, linear(), &sides, budget, shows);
        (verdicts.signal, shown.trees[0], shown.work) = (Some(answer), trees, work);
    }
    for (place, question) in [14, 15].into_iter().enumerate().filter(|(_, question)| asked.has(*question)) {
        let (answer, tree, work) = match linear() {
            Ok(Linear { rank, base }) => concordant(net, rank, base, question == 15, budget, shows),
            Err(gap) => (Err(gap), None, Work::default()),
        };
        (verdicts.concordant[place], shown.trees[place + 1]) = (Some(answer), tree.into_iter().collect());
        shown.work += work;
    }
}

fn solve_linear(net: &Net, asked: Asked, rank: &Result<Rank, Wide>, verdicts: &mut Verdicts, shown: &mut Shown) {
    let (species, reactions) = (net.species.len() as u32, net.reactions.len() as u32);
    // The columns of system 2 are reactions, and those of systems 1 and 3 species. What is a row's vector in one of
    // them is a column's in the other, over the rest of the coordinates.
    let turned = |members: u32, wide: &Wide| {
        let turn = |c: u32| if c < members { c + species + 1 } else { c - members + 1 };
        let mut basis: Vec<u32> = (0..species + members).filter(|c| !wide.basis.contains(c)).map(turn).collect();
        basis.sort_unstable();
        (turn(wide.index), basis)
    };
    let counted = |wide: &Wide| (wide.index + 1, wide.basis.iter().map(|c| c + 1).collect::<Vec<u32>>());
    let rank_answer = || match rank {
        Ok(rank) => Ok(rank.base()),
        Err(wide) => {
            let (index, basis) = turned(reactions, wide);
            Err(Gap::Wide { system: 1, class: 0, index, basis })
        }
    };
    verdicts.rank = asked.has(5).then(rank_answer);
    if asked.has(6) {
        verdicts.deficiency = Some(deficiencies(net, verdicts, shown, rank, &turned));
    }
    if asked.has(8) {
        let conservative = match (reaction_alone(net), rank) {
            (Some(multipliers), _) => Ok(Positive::No(multipliers)),
            (None, Ok(rank)) => rank.conservation().map_err(|wide| counted(&wide)),
            (None, Err(wide)) => Err(turned(reactions, wide)),
        };
        let open = |(index, basis)| Gap::Wide { system: 1, class: 0, index, basis };
        verdicts.conservative = Some(conservative.map_err(open));
    }
    if asked.has(7) {
        let dependent = match (species_alone(net), rank) {
            (Some(multipliers), _) => Ok(Positive::No(multipliers)),
            (None, Ok(rank)) => rank.dependence().map_err(|wide| counted(&wide)),
            (None, Err(wide)) => Err(counted(wide)),
        };
        let open = |(index, basis)| Gap::Wide { system: 2, class: 0, index, basis };
        verdicts.dependent = Some(dependent.map_err(open));
    }
}

fn deficiencies(
    net: &Net,
    verdicts: &Verdicts,
    shown: &mut Shown,
    rank: &Result<Rank, Wide>,
    turned: &dyn Fn(u32, &Wide) -> (u32, Vec<u32>),
) -> Answer<(u32, Vec<u32>)> {
    let Ok(rank) = rank else { return Err(Gap::Rests(5)) };
    let linkage = &verdicts.linkage;
    let total = net.complexes.len() as u32 - linkage.count - rank.rank();
    if linkage.count == 1 {
        return Ok((total, vec![total]));
    }
    let mut sizes = vec![0; linkage.count as usize];
    linkage.label.iter().for_each(|label| sizes[*label as usize - 1] += 1);
    let mut numbers = Vec::with_capacity(sizes.len());
    for (class, members) in class_members(net, linkage).into_iter().enumerate() {
        let count = members.len() as u32;
        let own = Rank::new(net, members).and_then(|own| own.fits().map(|()| own)).map_err(|wide| {
            let (index, basis) = turned(count, &wide);
            Gap::Wide { system: 3, class: class as u32 + 1, index, basis }
        })?;
        numbers.push(sizes[class] - 1 - own.rank());
        shown.ranks.push(own);
    }
    Ok((total, numbers))
}

/// A multiple of one list by which it has no positive number, where it is not zero and has one sign.
fn alone(numbers: impl Iterator<Item = i64>) -> Option<i128> {
    let signs = numbers.fold((false, false), |(plus, minus), number| (plus | (number > 0), minus | (number < 0)));
    match signs {
        (true, false) => Some(-1),
        (false, true) => Some(1),
        _ => None,
    }
}

/// Multipliers by which one reaction alone excludes a positive conservation law.
fn reaction_alone(net: &Net) -> Option<Vec<i128>> {
    let found = (0..net.reactions.len()).find_map(|r| alone(net.vector(r)).map(|times| (r, times)));
    found.map(|(r, times)| unit(net.reactions.len(), r, times))
}

/// Multipliers by which one species alone excludes a positive dependence.
fn species_alone(net: &Net) -> Option<Vec<i128>> {
    let amounts = |s: usize| {
        let amount = move |c: u32| i64::from(net.complexes[c as usize][s]);
        net.reactions.iter().map(move |(y, z)| amount(*z) - amount(*y))
    };
    let found = (0..net.species.len()).find_map(|s| alone(amounts(s)).map(|times| (s, times)));
    found.map(|(s, times)| unit(net.species.len(), s, times))
}

fn unit(size: usize, place: usize, value: i128) -> Vec<i128> {
    let mut numbers = vec![0; size];
    numbers[place] = value;
    numbers
}
