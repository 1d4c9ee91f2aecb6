//! Sets of coordinates, the signs of vectors, and the kinds that are asked of coordinates.

/// A set of coordinates.
#[derive(Clone, Copy, PartialEq, Eq)]
pub struct Mask<const W: usize>(pub [u64; W]);

impl<const W: usize> Mask<W> {
    pub const NONE: Mask<W> = Mask([0; W]);

    pub fn add(&mut self, place: usize) {
        self.0[place / 64] |= 1 << (place % 64);
    }

    pub fn has(&self, place: usize) -> bool {
        self.0[place / 64] >> (place % 64) & 1 == 1
    }

    pub fn is_empty(&self) -> bool {
        self.0.iter().all(|word| *word == 0)
    }

    fn with(&self, other: &Mask<W>, join: impl Fn(u64, u64) -> u64) -> Mask<W> {
        Mask(std::array::from_fn(|word| join(self.0[word], other.0[word])))
    }

    pub fn or(&self, other: &Mask<W>) -> Mask<W> {
        self.with(other, |one, other| one | other)
    }

    pub fn without(&self, other: &Mask<W>) -> Mask<W> {
        self.with(other, |one, other| one & !other)
    }

    pub fn and(&self, other: &Mask<W>) -> Mask<W> {
        self.with(other, |one, other| one & other)
    }

    /// The places, ascending.
    pub fn places(self) -> impl Iterator<Item = usize> {
        self.0.into_iter().enumerate().flat_map(|(word, bits)| {
            let next = |bits: &u64| Some(bits & (bits - 1)).filter(|bits| *bits != 0);
            std::iter::successors(Some(bits).filter(|bits| *bits != 0), next)
                .map(move |bits| word * 64 + bits.trailing_zeros() as usize)
        })
    }
}

/// Where a vector is positive, and where it is negative.
#[derive(Clone, Copy)]
pub struct Signs<const W: usize> {
    pub plus: Mask<W>,
    pub minus: Mask<W>,
}

impl<const W: usize> Signs<W> {
    pub const NONE: Signs<W> = Signs { plus: Mask::NONE, minus: Mask::NONE };

    pub fn of(numbers: impl Iterator<Item = i128>) -> Signs<W> {
        let mut signs = Signs::NONE;
        for (place, number) in numbers.enumerate() {
            signs.put(place, number.signum() as i64);
        }
        signs
    }

    pub fn put(&mut self, place: usize, sign: i64) {
        match sign {
            0 => {}
            1.. => self.plus.add(place),
            _ => self.minus.add(place),
        }
    }

    pub fn turned(&self) -> Signs<W> {
        Signs { plus: self.minus, minus: self.plus }
    }

    pub fn support(&self) -> Mask<W> {
        self.plus.or(&self.minus)
    }
}

/// What is known of the signs of a vector. A place of both masks may have any sign.
impl<const W: usize> Signs<W> {
    /// The sign at this place, if it is known.
    pub fn sign(&self, place: usize) -> Option<i64> {
        match (self.plus.has(place), self.minus.has(place)) {
            (true, true) => None,
            (plus, minus) => Some(i64::from(plus) - i64::from(minus)),
        }
    }

    /// A great multiple of this vector and the other one.
    pub fn over(&self, other: &Signs<W>) -> Signs<W> {
        let support = self.support();
        let (plus, minus) = (other.plus.without(&support), other.minus.without(&support));
        Signs { plus: self.plus.or(&plus), minus: self.minus.or(&minus) }
    }

    /// The sum with a multiple of a vector of the opposite sign at this place, so that it is zero there.
    pub fn cleared(&self, by: &Signs<W>, place: usize) -> Signs<W> {
        let (mut plus, mut minus) = (self.plus.or(&by.plus), self.minus.or(&by.minus));
        plus.0[place / 64] &= !(1 << (place % 64));
        minus.0[place / 64] &= !(1 << (place % 64));
        Signs { plus, minus }
    }

    /// The same for a place of any sign, by one of two vectors with opposite signs.
    pub fn cleared_by_either(&self, one: &Signs<W>, other: &Signs<W>, place: usize) -> Signs<W> {
        let more = Signs { plus: one.plus.or(&other.plus), minus: one.minus.or(&other.minus) };
        let against = more.plus.without(&self.plus).or(&more.minus.without(&self.minus));
        let any = Signs { plus: against, minus: against };
        self.cleared(&any, place)
    }
}

/// The coordinates that have to be positive, negative or zero. The others are free.
#[derive(Clone, Copy)]
pub struct Kinds<const W: usize> {
    pub plus: Mask<W>,
    pub minus: Mask<W>,
    pub zero: Mask<W>,
}

impl<const W: usize> Kinds<W> {
    pub const FREE: Kinds<W> = Kinds { plus: Mask::NONE, minus: Mask::NONE, zero: Mask::NONE };

    pub fn put(&mut self, place: usize, sign: i8) {
        match sign {
            0 => self.zero.add(place),
            1.. => self.plus.add(place),
            _ => self.minus.add(place),
        }
    }

    pub fn and(&self, more: &Kinds<W>) -> Kinds<W> {
        let (plus, minus, zero) = (self.plus.or(&more.plus), self.minus.or(&more.minus), self.zero.or(&more.zero));
        Kinds { plus, minus, zero }
    }

    /// Whether a vector that is orthogonal to the space has signs that exclude all vectors of these kinds.
    pub fn are_excluded_by(&self, dual: &Signs<W>) -> bool {
        let (mut wrong, mut shown) = (0, 0);
        for word in 0..W {
            let (plus, minus, zero) = (self.plus.0[word], self.minus.0[word], self.zero.0[word]);
            wrong |= dual.plus.0[word] & !(plus | zero) | dual.minus.0[word] & !(minus | zero);
            shown |= dual.plus.0[word] & plus | dual.minus.0[word] & minus;
        }
        wrong == 0 && shown != 0
    }

    /// The same where what has to be positive at these places may be zero, too: a vector that is zero at all others shows nothing.
    pub fn are_excluded_but_for(&self, weak: &Mask<W>, dual: &Signs<W>) -> bool {
        self.are_excluded_by(dual)
            && !dual.plus.and(&self.plus.without(weak)).or(&dual.minus.and(&self.minus)).is_empty()
    }

    /// Whether no sign of a vector is against these kinds.
    pub fn admit(&self, signs: &Signs<W>) -> bool {
        let against = |word: usize| {
            let (plus, minus, zero) = (self.plus.0[word], self.minus.0[word], self.zero.0[word]);
            signs.plus.0[word] & (minus | zero) | signs.minus.0[word] & (plus | zero)
        };
        (0..W).fold(0, |all, word| all | against(word)) == 0
    }

    pub fn kind(&self, place: usize) -> Kind {
        if self.plus.has(place) {
            Kind::Plus
        } else if self.minus.has(place) {
            Kind::Minus
        } else if self.zero.has(place) {
            Kind::Zero
        } else {
            Kind::Free
        }
    }
}

#[derive(Clone, Copy, PartialEq, Eq)]
pub enum Kind {
    Plus,
    Minus,
    Zero,
    Free,
}
