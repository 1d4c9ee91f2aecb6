//! Vectors of a space with given signs: lists of such vectors and of the multipliers that exclude them, which are tried
//! first, and a dictionary of the space that is exchanged until it shows one of them.

use crate::frame::Frame;
use crate::linear::Dictionary;
use crate::net::gcd;
use crate::search::Work;
use crate::signs::{Kind, Kinds, Mask, Signs};

#[derive(Clone, Copy)]
enum Place {
    Basis(usize),
    Row(usize),
}

enum Aimed {
    /// The vector of a place of the basis, or its negative.
    Ray(usize, i64),
    /// A row excludes all.
    Cut(usize),
}

/// At most so many rays are kept for a coordinate and a sign.
const MAX_RAYS: usize = 512;

struct Cut<const W: usize> {
    dual: Signs<W>,
    name: u32,
}

/// One of the two systems of a sign problem, with what was found so far. A level is a number of choices made.
/// A WEAK one has places where plus asks for no more than a number that is not negative.
pub struct Part<'b, const W: usize, const WEAK: bool = false> {
    dictionary: Dictionary,
    place: Vec<Place>,
    kind: Vec<Kind>,
    frame: Frame<'b>,
    weak: Mask<W>,
    /// The coordinates whose kinds a level settles.
    settled: Vec<Mask<W>>,
    /// For each level the last one, up to it, that settles anything.
    last: Vec<usize>,
    pub kinds: Vec<Kinds<W>>,
    /// For each level a solution of its prefix.
    full: Vec<Signs<W>>,
    /// The orthogonal vectors whose last coordinates a level settles.
    cuts: Vec<Vec<Cut<W>>>,
    /// Vectors that are positive at a coordinate, or negative.
    rays: Vec<[Vec<Signs<W>>; 2]>,
    /// The multipliers of each cut.
    pub lists: Vec<Vec<i128>>,
    pub work: Work,
}

/// A cut of a part: its name, and whether it is negated.
pub type Named = (u32, bool);

type Stop = (u32, Vec<u32>);

impl<'b, const W: usize> Part<'b, W> {
    /// `settled` is as long as there are levels.
    pub fn new(dictionary: Dictionary, frame: Frame<'b>, settled: Vec<Mask<W>>) -> Part<'b, W> {
        Part::of(dictionary, frame, settled, Mask::NONE)
    }
}

impl<'b, const W: usize> Part<'b, W, true> {
    /// The same with these places weak.
    pub fn weak(dictionary: Dictionary, frame: Frame<'b>, settled: Vec<Mask<W>>, weak: Mask<W>) -> Part<'b, W, true> {
        Part::of(dictionary, frame, settled, weak)
    }
}

impl<'b, const W: usize, const WEAK: bool> Part<'b, W, WEAK> {
    fn of(dictionary: Dictionary, frame: Frame<'b>, settled: Vec<Mask<W>>, weak: Mask<W>) -> Part<'b, W, WEAK> {
        let count = dictionary.rows.len() + dictionary.width;
        let mut place = vec![Place::Basis(0); count];
        dictionary.basis.iter().enumerate().for_each(|(q, c)| place[*c as usize] = Place::Basis(q));
        dictionary.rows.iter().enumerate().for_each(|(p, c)| place[*c as usize] = Place::Row(p));
        let (mut last, levels) = (vec![0; settled.len()], settled.len());
        for level in 1..levels {
            last[level] = if settled[level].is_empty() { last[level - 1] } else { level };
        }
        let (kind, kinds, lists) = (vec![Kind::Free; count], vec![Kinds::FREE; levels], Vec::new());
        let (cuts, full) = ((0..levels).map(|_| Vec::new()).collect(), vec![Signs::NONE; levels]);
        let rays = (0..count).map(|_| [Vec::new(), Vec::new()]).collect();
        let work = Work::default();
        Part { dictionary, place, kind, frame, weak, settled, last, kinds, full, cuts, rays, lists, work }
    }

    /// Whether a level settles anything.
    pub fn changes(&self, level: usize) -> bool {
        self.last[level] == level
    }

    /// A known cut of the prefix of this level, which no shorter prefix has.
    pub fn known_cut(&mut self, level: usize) -> Option<Named> {
        let (kinds, bucket) = (&self.kinds[level], &mut self.cuts[level]);
        let (no_plus, no_minus) = (kinds.plus.or(&kinds.zero), kinds.minus.or(&kinds.zero));
        let is_near = |dual: &Signs<W>| {
            let (mut wrong, mut wrong_negated) = (0, 0);
            for word in 0..W {
                let (plus, minus) = (dual.plus.0[word], dual.minus.0[word]);
                wrong |= plus & !no_plus.0[word] | minus & !no_minus.0[word];
                wrong_negated |= minus & !no_plus.0[word] | plus & !no_minus.0[word];
            }
            wrong == 0 || wrong_negated == 0
        };
        for at in 0..bucket.len() {
            if !is_near(&bucket[at].dual) {
                continue;
            }
            let dual = bucket[at].dual;
            let exclude = |dual: &Signs<W>| {
                if WEAK { kinds.are_excluded_but_for(&self.weak, dual) } else { kinds.are_excluded_by(dual) }
            };
            let is_negated = exclude(&dual.turned());
            if is_negated || exclude(&dual) {
                let name = bucket[at].name;
                bucket.swap(at, at / 2);
                self.work.hits += 1;
                return Some((name, is_negated));
            }
        }
        None
    }

    /// Whether the prefix of this level has a solution, where no known cut excludes it: or a new cut. The one before it
    /// has one, which is changed to fit: first it is made zero, then positive or negative, where this level asks for it.
    pub fn feasible(&mut self, level: usize) -> Result<Option<Named>, Stop> {
        let (mut kinds, mut full) = match level {
            0 => (Kinds::FREE, Signs::NONE),
            _ => (self.kinds[level - 1], self.full[self.last[level - 1]]),
        };
        let (here, new) = (self.kinds[level], self.settled[level]);
        for c in new.and(&here.zero).places() {
            let Some(cleared) = self.cleared(full, c, &kinds)? else { return self.solve(level) };
            full = cleared;
            kinds.zero.add(c);
        }
        for (mask, sign) in [(here.plus, 1), (here.minus, -1)] {
            for c in new.and(&mask).places() {
                kinds.put(c, sign as i8);
                let is_weak = WEAK && self.weak.has(c);
                if full.sign(c) != Some(sign) && !(is_weak && full.sign(c) == Some(0)) {
                    match self.ray(c, sign, &kinds)? {
                        Err(_) if is_weak => return self.solve(level),
                        Err(p) => return self.learn(level, p, sign).map(Some),
                        Ok(ray) => full = ray.over(&full),
                    }
                }
            }
        }
        self.full[level] = full;
        Ok(None)
    }

    /// The solution made zero at a place, if there are vectors for it.
    fn cleared(&mut self, full: Signs<W>, c: usize, kinds: &Kinds<W>) -> Result<Option<Signs<W>>, Stop> {
        Ok(match full.sign(c) {
            Some(0) => Some(full),
            Some(sign) => self.ray(c, -sign, kinds)?.ok().map(|ray| full.cleared(&ray, c)),
            None => match (self.ray(c, 1, kinds)?, self.ray(c, -1, kinds)?) {
                (Ok(one), Ok(other)) => Some(full.cleared_by_either(&one, &other, c)),
                _ => None,
            },
        })
    }

    /// A solution of the prefix of this level from nothing, or a cut.
    fn solve(&mut self, level: usize) -> Result<Option<Named>, Stop> {
        let (kinds, new, mut full) = (self.kinds[level], self.settled[level], Signs::NONE);
        let plus = if WEAK { kinds.plus.without(&self.weak) } else { kinds.plus };
        let aims = [(plus.and(&new), 1), (kinds.minus.and(&new), -1), (plus, 1), (kinds.minus, -1)];
        for (mask, sign) in aims {
            for c in mask.places() {
                if full.sign(c) != Some(sign) {
                    match self.ray(c, sign, &kinds)? {
                        Err(p) => return self.learn(level, p, sign).map(Some),
                        Ok(ray) => full = ray.over(&full),
                    }
                }
            }
        }
        self.full[level] = full;
        Ok(None)
    }

    /// A vector of these kinds with this sign at a coordinate, or a row that excludes it.
    fn ray(&mut self, c: usize, sign: i64, kinds: &Kinds<W>) -> Result<Result<Signs<W>, usize>, Stop> {
        let known = &mut self.rays[c][usize::from(sign < 0)];
        if let Some(at) = known.iter().position(|ray| kinds.admit(ray)) {
            known.swap(at, at / 2);
            self.work.hits += 1;
            return Ok(Ok(known[at / 2]));
        }
        self.prepare(kinds);
        self.work.decisions += 1;
        match self.aim(c, sign)? {
            Aimed::Cut(p) => Ok(Err(p)),
            Aimed::Ray(q, step) => {
                let ray = self.signs_of(q, step);
                self.keep(ray);
                Ok(Ok(ray))
            }
        }
    }

    fn prepare(&mut self, kinds: &Kinds<W>) {
        self.kind.iter_mut().enumerate().for_each(|(place, kind)| *kind = kinds.kind(place));
    }

    fn exchange(&mut self, p: usize, q: usize) -> Result<(), Stop> {
        self.work.exchanges += 1;
        let (leaves, enters) = (self.dictionary.rows[p], self.dictionary.basis[q]);
        self.dictionary.exchange(p, q).map_err(|wide| self.frame.named(wide))?;
        (self.place[leaves as usize], self.place[enters as usize]) = (Place::Basis(q), Place::Row(p));
        Ok(())
    }

    /// A vector of the kinds whose coordinate e has this sign, or a row that excludes it. What is free goes out of the
    /// basis and what is zero goes in, once each; between these the least coordinates are taken, so that it ends.
    fn aim(&mut self, e: usize, sign: i64) -> Result<Aimed, Stop> {
        loop {
            let (q, step, own) = match self.place[e] {
                Place::Basis(q) => (q, sign, usize::MAX),
                Place::Row(p) => match self.entering(p, sign) {
                    Some((q, step)) => (q, step, p),
                    None => return Ok(Aimed::Cut(p)),
                },
            };
            match self.leaving(q, step, own) {
                None => return Ok(Aimed::Ray(q, step)),
                Some(p) => self.exchange(p, q)?,
            }
        }
    }

    fn entering(&self, p: usize, sign: i64) -> Option<(usize, i64)> {
        let mut chosen: Option<(u32, usize, i64)> = None;
        for (q, entry) in self.dictionary.row(p).iter().enumerate().filter(|(_, entry)| **entry != 0) {
            let (c, step) = (self.dictionary.basis[q], sign * entry.signum());
            match self.kind[c as usize] {
                Kind::Free => return Some((q, step)),
                Kind::Plus if step > 0 => {}
                Kind::Minus if step < 0 => {}
                _ => continue,
            }
            if chosen.is_none_or(|(least, ..)| c < least) {
                chosen = Some((c, q, step));
            }
        }
        chosen.map(|(_, q, step)| (q, step))
    }

    fn leaving(&self, q: usize, step: i64, own: usize) -> Option<usize> {
        let mut chosen: Option<(u32, usize)> = None;
        for (p, c) in self.dictionary.rows.iter().enumerate() {
            let moves = self.dictionary.entry(p, q).signum() * step;
            if moves == 0 || p == own {
                continue;
            }
            match self.kind[*c as usize] {
                Kind::Zero => return Some(p),
                Kind::Plus if moves < 0 => {}
                Kind::Minus if moves > 0 => {}
                _ => continue,
            }
            if chosen.is_none_or(|(least, _)| *c < least) {
                chosen = Some((*c, p));
            }
        }
        chosen.map(|(_, p)| p)
    }

    fn signs_of(&self, q: usize, step: i64) -> Signs<W> {
        let mut signs = Signs::NONE;
        signs.put(self.dictionary.basis[q] as usize, step);
        for (p, c) in self.dictionary.rows.iter().enumerate() {
            signs.put(*c as usize, self.dictionary.entry(p, q).signum() * step);
        }
        signs
    }

    /// Keeps a ray and its negative.
    fn keep(&mut self, ray: Signs<W>) {
        for ray in [ray, ray.turned()] {
            for (mask, side) in [(ray.plus, 0), (ray.minus, 1)] {
                for c in mask.places() {
                    let known = &mut self.rays[c][side];
                    if known.len() == MAX_RAYS {
                        known.pop();
                    }
                    known.push(ray);
                }
            }
        }
    }

    fn learn(&mut self, level: usize, p: usize, sign: i64) -> Result<Named, Stop> {
        let (dictionary, name) = (&self.dictionary, self.lists.len() as u32);
        let mut dual = vec![0; self.place.len()];
        dual[dictionary.rows[p] as usize] = dictionary.den[p] * sign;
        for (c, entry) in dictionary.basis.iter().zip(dictionary.row(p)) {
            dual[*c as usize] = -entry * sign;
        }
        let divisor = dual.iter().fold(0, |divisor: u64, x: &i64| gcd(divisor, x.unsigned_abs()));
        dual.iter_mut().for_each(|x| *x /= divisor as i64);
        let list = self.frame.multipliers(&dual);
        self.lists.push(list.ok_or_else(|| self.frame.named(dictionary.wide(dictionary.rows[p])))?);
        let dual = Signs::of(dual.iter().map(|x| i128::from(*x)));
        self.cuts[level].push(Cut { dual, name });
        Ok((name, false))
    }

    /// The columns of a solution of a feasible prefix: a sum of vectors that cover all its signs.
    pub fn solution(&mut self, level: usize, columns: usize) -> Result<Vec<i128>, Stop> {
        let kinds = self.kinds[level];
        let (mut full, mut sum) = (Signs::NONE, vec![0; columns]);
        self.prepare(&kinds);
        for (mask, sign) in [(kinds.plus.without(&self.weak), 1), (kinds.minus, -1)] {
            for c in mask.places() {
                if full.sign(c) == Some(sign) {
                    continue;
                }
                let Aimed::Ray(q, step) = self.aim(c, sign)? else { unreachable!("the prefix is feasible") };
                full = self.signs_of(q, step).over(&full);
                let found = self.vector(q)?;
                sum.iter_mut().zip(&found).for_each(|(sum, x)| *sum += x * i128::from(step));
            }
        }
        Ok(sum)
    }

    /// The columns of the vector of a place of the basis.
    fn vector(&self, q: usize) -> Result<Vec<i128>, Stop> {
        let c = self.dictionary.basis[q];
        let (own, numbers) = self.dictionary.column(q).map_err(|wide| self.frame.named(wide))?;
        let mut vector = vec![0; self.place.len()];
        vector[c as usize] = own;
        self.dictionary.rows.iter().zip(numbers).for_each(|(c, number)| vector[*c as usize] = number);
        self.frame.columns(&vector).ok_or_else(|| self.frame.named(self.dictionary.wide(c)))
    }
}
