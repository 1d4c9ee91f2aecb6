//! Reads network texts: each byte is looked at once, names are slices of the text, statements are added as they are
//! read, and a line is read again only to name its fault.

use crate::net::{MAX_AMOUNT, MAX_COMPLEXES, MAX_NAME, MAX_REACTIONS, MAX_SPECIES, NAME, Net, Quickly, Row, find};
use std::collections::HashMap;

pub const MAX_TEXT: usize = 2_097_152;

/// Why a text is refused, in the order of the tests.
#[derive(Clone, Copy, PartialEq, Eq, PartialOrd, Ord)]
pub enum Code {
    TextTooLong,
    NotAscii,
    StrayMark,
    NoArrow,
    EmptySide,
    BadName,
    NameTooLong,
    ZeroCoefficient,
    CoefficientTooLarge,
    SelfReaction,
    TooManySpecies,
    TooManyComplexes,
    TooManyReactions,
    NoReaction,
}

impl Code {
    pub fn number_and_name(self) -> (u32, &'static str) {
        match self {
            Code::TextTooLong => (19, "TextTooLong"),
            Code::NotAscii => (11, "NotAscii"),
            Code::StrayMark => (18, "StrayMark"),
            Code::NoArrow => (12, "NoArrow"),
            Code::EmptySide => (13, "EmptySide"),
            Code::BadName => (14, "BadName"),
            Code::NameTooLong => (15, "NameTooLong"),
            Code::ZeroCoefficient => (16, "ZeroCoefficient"),
            Code::CoefficientTooLarge => (17, "CoefficientTooLarge"),
            Code::SelfReaction => (1, "SelfReaction"),
            Code::TooManySpecies => (2, "TooManySpecies"),
            Code::TooManyComplexes => (3, "TooManyComplexes"),
            Code::TooManyReactions => (4, "TooManyReactions"),
            Code::NoReaction => (5, "NoReaction"),
        }
    }
}

#[derive(Clone, Copy, PartialEq, Eq)]
enum Arrow {
    Right,
    Left,
    Both,
}

const NONE: u32 = u32::MAX;

/// A name of the text: its species, where it has one, and its place on the side that it was last seen on.
struct Known<'t> {
    name: &'t [u8],
    species: u32,
    side: u32,
    place: u32,
}

/// The names of a side with their amounts, each name once, and the complex once it has a number.
#[derive(Default)]
struct Side {
    terms: Vec<(u32, u32)>,
    complex: Option<u32>,
}

struct Builder<'t> {
    ids: HashMap<&'t [u8], u32, Quickly>,
    known: Vec<Known<'t>>,
    species: Vec<&'t [u8]>,
    numbers: HashMap<Row, u32, Quickly>,
    complexes: Vec<Row>,
    joined: Vec<bool>,
    reactions: Vec<(u32, u32)>,
    sides_read: u32,
}

impl<'t> Builder<'t> {
    fn new() -> Builder<'t> {
        Builder {
            ids: HashMap::default(),
            known: Vec::new(),
            species: Vec::with_capacity(MAX_SPECIES),
            numbers: HashMap::default(),
            complexes: Vec::new(),
            joined: vec![false; MAX_COMPLEXES * MAX_COMPLEXES],
            reactions: Vec::new(),
            sides_read: 0,
        }
    }

    /// Adds a term to the side that is read. The answer is the amount of its name so far.
    fn add_term(&mut self, side: &mut Side, name: &'t [u8], count: u32) -> u32 {
        let next = self.known.len() as u32;
        let id = *self.ids.entry(name).or_insert(next);
        if id == next {
            self.known.push(Known { name, species: NONE, side: NONE, place: 0 });
        }
        let known = &mut self.known[id as usize];
        if known.side == self.sides_read {
            let amount = &mut side.terms[known.place as usize].1;
            *amount += count;
            return *amount;
        }
        known.side = self.sides_read;
        known.place = side.terms.len() as u32;
        side.terms.push((id, count));
        count
    }

    /// Whether two sides are the same complex, for more names than there may be species.
    fn are_same(&self, x: &Side, y: &Side) -> bool {
        let mut amounts = vec![0; self.known.len()];
        for (id, amount) in &x.terms {
            amounts[*id as usize] = *amount;
        }
        x.terms.len() == y.terms.len() && y.terms.iter().all(|(id, amount)| amounts[*id as usize] == *amount)
    }

    fn number_species(&mut self, side: &Side) -> Option<()> {
        for (id, _) in &side.terms {
            let known = &mut self.known[*id as usize];
            if known.species == NONE {
                if self.species.len() == MAX_SPECIES {
                    return None;
                }
                known.species = self.species.len() as u32;
                self.species.push(known.name);
            }
        }
        Some(())
    }

    fn row(&self, side: &Side) -> Row {
        let mut row = [0; MAX_SPECIES];
        for (id, amount) in &side.terms {
            row[self.known[*id as usize].species as usize] = *amount as u8;
        }
        row
    }

    fn complex(&mut self, side: &mut Side, row: Row) -> Result<u32, Code> {
        let next = self.complexes.len() as u32;
        let number = *self.numbers.entry(row).or_insert(next);
        if number == next {
            if self.complexes.len() == MAX_COMPLEXES {
                return Err(Code::TooManyComplexes);
            }
            self.complexes.push(row);
        }
        side.complex = Some(number);
        Ok(number)
    }

    fn complexes(&mut self, x: &mut Side, y: &mut Side) -> Result<(u32, u32), Code> {
        if let (Some(from), Some(to)) = (x.complex, y.complex) {
            return Ok((from, to));
        }
        if self.number_species(x).and_then(|()| self.number_species(y)).is_none() {
            return Err(if self.are_same(x, y) { Code::SelfReaction } else { Code::TooManySpecies });
        }
        let (from, to) = (self.row(x), self.row(y));
        if from == to {
            return Err(Code::SelfReaction);
        }
        Ok((self.complex(x, from)?, self.complex(y, to)?))
    }

    fn add_reaction(&mut self, x: &mut Side, y: &mut Side) -> Result<(), Code> {
        let (from, to) = self.complexes(x, y)?;
        let joined = &mut self.joined[from as usize * MAX_COMPLEXES + to as usize];
        if !*joined {
            if self.reactions.len() == MAX_REACTIONS {
                return Err(Code::TooManyReactions);
            }
            *joined = true;
            self.reactions.push((from, to));
        }
        Ok(())
    }

    fn add_arrow(&mut self, x: &mut Side, arrow: Arrow, y: &mut Side) -> Result<(), Code> {
        if arrow != Arrow::Left {
            self.add_reaction(x, y)?;
        }
        if arrow != Arrow::Right {
            self.add_reaction(y, x)?;
        }
        Ok(())
    }
}

/// What ends a side.
enum End {
    Arrow(Arrow),
    Line,
}

/// A line that is not right by itself.
struct Wrong;

struct Text<'t> {
    bytes: &'t [u8],
    at: usize,
}

impl<'t> Text<'t> {
    /// The next byte; an LF at the end.
    fn byte(&self) -> u8 {
        self.bytes.get(self.at).copied().unwrap_or(b'\n')
    }

    fn skip_blanks(&mut self) -> u8 {
        loop {
            match self.byte() {
                b' ' | b'\t' => self.at += 1,
                byte => return byte,
            }
        }
    }

    /// The number here, or some number above the limit.
    fn number(&mut self) -> u32 {
        let mut number = 0u32;
        loop {
            let digit = self.byte().wrapping_sub(b'0');
            if digit > 9 {
                return number;
            }
            number = (number * 10 + u32::from(digit)).min(MAX_AMOUNT + 1);
            self.at += 1;
        }
    }

    fn name(&mut self) -> &'t [u8] {
        let rest = &self.bytes[self.at..];
        let length = rest.iter().position(|byte| NAME[*byte as usize] == 0).unwrap_or(rest.len());
        self.at += length;
        &rest[..length]
    }

    /// Whether the line ends here. Then what is here is passed over.
    fn ends(&mut self, byte: u8) -> bool {
        match byte {
            b'\n' => {}
            b'#' => self.at += find(b'\n', &self.bytes[self.at..]),
            b'\r' if matches!(self.bytes.get(self.at + 1), None | Some(b'\n')) => self.at += 1,
            _ => return false,
        }
        self.at += 1;
        true
    }

    /// The arrow here, if there is one.
    fn arrow(&mut self) -> Option<Arrow> {
        let (arrow, width) = match &self.bytes[self.at..] {
            [b'-', b'>', ..] => (Arrow::Right, 2),
            [b'<', b'-', b'>', ..] => (Arrow::Both, 3),
            [b'<', b'-', ..] => (Arrow::Left, 2),
            _ => return None,
        };
        self.at += width;
        Some(arrow)
    }

    fn end_of_side(&mut self, byte: u8) -> Result<End, Wrong> {
        match byte {
            b'-' | b'<' => self.arrow().map(End::Arrow).ok_or(Wrong),
            _ => self.ends(byte).then_some(End::Line).ok_or(Wrong),
        }
    }

    /// Reads a side, and what ends it.
    fn side(&mut self, net: &mut Builder<'t>, side: &mut Side) -> Result<End, Wrong> {
        side.terms.clear();
        side.complex = None;
        net.sides_read += 1;
        let mut is_first = true;
        loop {
            let mut byte = self.skip_blanks();
            let mut count = 1;
            if byte.is_ascii_digit() {
                count = self.number();
                byte = self.skip_blanks();
                if is_first && count == 0 && NAME[byte as usize] != 2 {
                    return self.end_of_side(byte);
                }
            }
            if NAME[byte as usize] != 2 {
                return Err(Wrong);
            }
            let name = self.name();
            if name.len() > MAX_NAME || count == 0 || net.add_term(side, name, count) > MAX_AMOUNT {
                return Err(Wrong);
            }
            byte = self.skip_blanks();
            if byte != b'+' {
                return self.end_of_side(byte);
            }
            self.at += 1;
            is_first = false;
        }
    }

    /// Reads a line, and adds what it says. The sides of the line go before its statements, so that a statement's
    /// fault waits for the end of the line.
    fn line(&mut self, net: &mut Builder<'t>, sides: &mut (Side, Side)) -> Result<Result<(), Code>, Wrong> {
        let byte = self.skip_blanks();
        if self.ends(byte) {
            return Ok(Ok(()));
        }
        let End::Arrow(mut arrow) = self.side(net, &mut sides.0)? else { return Err(Wrong) };
        let mut added = Ok(());
        loop {
            let end = self.side(net, &mut sides.1)?;
            added = added.and_then(|()| net.add_arrow(&mut sides.0, arrow, &mut sides.1));
            match end {
                End::Line => return Ok(added),
                End::Arrow(next) => arrow = next,
            }
            std::mem::swap(&mut sides.0, &mut sides.1);
        }
    }

    /// The first fault of a line that is wrong by itself.
    fn fault(&mut self) -> Code {
        #[derive(Clone, Copy)]
        enum Place {
            Empty,
            Number(u32),
            Term,
            Bad,
        }
        let mut fault = Code::CoefficientTooLarge;
        let mut has_arrow = false;
        let (mut place, mut is_first) = (Place::Empty, true);
        loop {
            let byte = self.skip_blanks();
            let here = self.at;
            let arrow = self.arrow();
            let ends = arrow.is_none() && self.ends(byte);
            if arrow.is_some() || ends || byte == b'+' {
                match place {
                    Place::Empty => fault = fault.min(Code::EmptySide),
                    Place::Number(0) if is_first && byte != b'+' => {}
                    Place::Number(_) | Place::Bad => fault = fault.min(Code::BadName),
                    Place::Term => {}
                }
                is_first = byte != b'+';
                place = Place::Empty;
                has_arrow |= arrow.is_some();
                self.at += usize::from(byte == b'+');
                if ends {
                    return if has_arrow { fault } else { fault.min(Code::NoArrow) };
                }
            } else if byte.is_ascii_digit() {
                let number = self.number();
                place = if let Place::Empty = place { Place::Number(number) } else { Place::Bad };
            } else if NAME[byte as usize] == 2 {
                let length = self.name().len();
                place = match place {
                    Place::Empty | Place::Number(_) => {
                        if length > MAX_NAME {
                            fault = fault.min(Code::NameTooLong);
                        } else if let Place::Number(0) = place {
                            fault = fault.min(Code::ZeroCoefficient);
                        }
                        Place::Term
                    }
                    Place::Term | Place::Bad => Place::Bad,
                };
            } else {
                fault = fault.min(if matches!(byte, b' '..=b'~') { Code::StrayMark } else { Code::NotAscii });
                place = Place::Bad;
                self.at = here + 1;
            }
        }
    }
}

/// The network of a text, or its first fault and the line of that.
pub fn read(bytes: &[u8]) -> Result<Net, (Code, u32)> {
    if bytes.len() > MAX_TEXT {
        return Err((Code::TextTooLong, 0));
    }
    let mut net = Builder::new();
    let mut sides = (Side::default(), Side::default());
    let mut text = Text { bytes, at: 0 };
    let mut line = 0;
    while text.at <= bytes.len() {
        line += 1;
        let start = text.at;
        match text.line(&mut net, &mut sides) {
            Ok(added) => added.map_err(|code| (code, line))?,
            Err(Wrong) => {
                text.at = start;
                return Err((text.fault(), line));
            }
        }
    }
    if net.reactions.is_empty() {
        return Err((Code::NoReaction, 0));
    }
    let species = net.species.iter().map(|name| Box::from(*name)).collect();
    Ok(Net::new(species, net.complexes, net.reactions))
}
