//! Exact linear algebra: a dictionary of a matrix whose rows are kept as integers of 64 bits, exchanged without
//! fractions. Products are taken in 128 bits where 64 do not hold them.

use crate::net::{Net, gcd, gcd_wide};

/// Entries stay below this in absolute value.
pub const LIMIT: u128 = 1 << 62;
/// A row whose numbers stay below this may have a common divisor.
const NEAR: u128 = 1 << 40;
/// Numbers of a certificate stay below this in absolute value.
pub const FREE: u128 = 1 << 72;

/// The least common multiple, where it is below the limit.
fn lcm(x: u128, y: u128, limit: u128) -> Option<u128> {
    if y == 1 { Some(x) } else { (x / gcd_wide(x, y)).checked_mul(y).filter(|z| *z < limit) }
}

/// Divides numbers by one that divides them all: by shifts, and by the inverse of what is odd.
fn divide(numbers: &mut [i64], divisor: u64) {
    let (shift, odd) = (divisor.trailing_zeros(), divisor >> divisor.trailing_zeros());
    // Each step doubles the bits that are right; three are at first.
    let inverse = (0..5).fold(odd, |x, _| x.wrapping_mul(2u64.wrapping_sub(odd.wrapping_mul(x))));
    numbers.iter_mut().for_each(|number| *number = (*number >> shift).wrapping_mul(inverse as i64));
}

/// A basis in which the row of a coordinate outside it has an entry of 2^62 or more, or another number of 2^72 or more.
pub struct Wide {
    pub index: u32,
    pub basis: Vec<u32>,
}

/// Whether all entries of a vector can be positive in a space.
pub enum Positive {
    Yes(Vec<i128>),
    /// Multipliers of the matrix's rows, whose combination has no positive entry and is not zero.
    No(Vec<i128>),
}

/// Each row says `den * y = n1 * x1 + .. + nk * xk`, with a positive `den`. The basis is what is on the right. Coordinates count from 0, the columns of the matrix first and then its rows.
#[derive(Clone)]
pub struct Dictionary {
    pub columns: usize,
    pub width: usize,
    pub basis: Vec<u32>,
    pub rows: Vec<u32>,
    pub den: Vec<i64>,
    /// At least the absolute value of each entry of the row, `den` too.
    most: Vec<u64>,
    /// Whether the row is known to have no common divisor.
    is_primitive: Vec<bool>,
    entries: Vec<i64>,
    /// The leading row of an exchange, and the places where it is not zero.
    lead: Vec<i64>,
    nonzero: Vec<u32>,
}

impl Dictionary {
    pub fn new(columns: usize, basis: Vec<u32>, room: usize) -> Dictionary {
        let width = basis.len();
        let (rows, den, most) = (Vec::with_capacity(room), Vec::with_capacity(room), Vec::with_capacity(room));
        let (entries, is_primitive) = (Vec::with_capacity(room * width), Vec::with_capacity(room));
        let (lead, nonzero) = (Vec::new(), Vec::new());
        Dictionary { columns, width, basis, rows, den, most, is_primitive, entries, lead, nonzero }
    }

    /// Adds a row `den * y = entries * x`, without the common divisor of these numbers.
    pub fn push(&mut self, coordinate: u32, den: i64, entries: impl Iterator<Item = i64>) {
        let start = self.entries.len();
        self.entries.extend(entries);
        let row = &mut self.entries[start..];
        let divisor = row.iter().fold(den.unsigned_abs(), |divisor, entry| gcd(divisor, entry.unsigned_abs()));
        row.iter_mut().for_each(|entry| *entry /= divisor as i64);
        let den = den / divisor as i64;
        self.most.push(row.iter().fold(den.unsigned_abs(), |most, entry| most.max(entry.unsigned_abs())));
        self.rows.push(coordinate);
        self.den.push(den);
        self.is_primitive.push(true);
    }

    pub fn row(&self, i: usize) -> &[i64] {
        &self.entries[i * self.width..(i + 1) * self.width]
    }

    pub fn entry(&self, i: usize, place: usize) -> i64 {
        self.entries[i * self.width + place]
    }

    pub fn is_column(&self, coordinate: u32) -> bool {
        (coordinate as usize) < self.columns
    }

    pub fn wide(&self, index: u32) -> Wide {
        let mut basis = self.basis.clone();
        basis.sort_unstable();
        Wide { index, basis }
    }

    /// Exchanges the coordinate of a row with one of the basis.
    pub fn exchange(&mut self, p: usize, q: usize) -> Result<(), Wide> {
        let width = self.width;
        let (own, den) = (self.entry(p, q), self.den[p]);
        let mut lead = std::mem::take(&mut self.lead);
        lead.clear();
        lead.extend(self.row(p).iter().map(|entry| if own > 0 { -*entry } else { *entry }));
        lead[q] = if own > 0 { den } else { -den };
        let own = own.abs();
        self.entries[p * width..(p + 1) * width].copy_from_slice(&lead);
        self.den[p] = own;
        std::mem::swap(&mut self.rows[p], &mut self.basis[q]);
        self.nonzero.clear();
        self.nonzero.extend((0..width as u32).filter(|place| lead[*place as usize] != 0));
        for i in 0..self.rows.len() {
            let factor = self.entries[i * width + q];
            if i != p && factor != 0 {
                let shared = gcd(own.unsigned_abs(), factor.unsigned_abs()) as i64;
                self.add(i, [p, q], own / shared, factor / shared, &lead)?;
            }
        }
        self.lead = lead;
        Ok(())
    }

    /// Makes row i `times` of itself, without its entry at q, and `factor` of the leading row p. A common divisor is left
    /// in it until the numbers may be large.
    fn add(&mut self, i: usize, [p, q]: [usize; 2], times: i64, factor: i64, lead: &[i64]) -> Result<(), Wide> {
        let row = &mut self.entries[i * self.width..(i + 1) * self.width];
        row[q] = 0;
        let bound = u128::from(self.most[i]) * u128::from(times.unsigned_abs())
            + u128::from(self.most[p]) * u128::from(factor.unsigned_abs());
        // The two multiples have no common divisor, so of primitive rows only what divides both old denominators can
        // divide the new one.
        let are_primitive = self.is_primitive[i] && self.is_primitive[p];
        let shared = || are_primitive.then(|| gcd(self.den[i].unsigned_abs(), lead[q].unsigned_abs()));
        self.is_primitive[i] = bound >= NEAR;
        if bound >= LIMIT {
            let shared = shared();
            return self.add_wide(i, times, factor, lead, shared);
        }
        if times != 1 {
            row.iter_mut().for_each(|entry| *entry *= times);
        }
        for place in &self.nonzero {
            row[*place as usize] += lead[*place as usize] * factor;
        }
        let den = self.den[i] * times;
        if bound < NEAR {
            (self.den[i], self.most[i]) = (den, bound as u64);
            return Ok(());
        }
        let mut divisor = shared().unwrap_or(den as u64);
        for entry in row.iter() {
            if divisor == 1 {
                break;
            }
            let rest = entry.unsigned_abs() % divisor;
            divisor = if rest == 0 { divisor } else { gcd(divisor, rest) };
        }
        if divisor > 1 {
            divide(row, divisor);
        }
        self.den[i] = den / divisor as i64;
        self.most[i] = row.iter().fold(self.den[i] as u64, |most, entry| most.max(entry.unsigned_abs()));
        Ok(())
    }

    fn add_wide(&mut self, i: usize, times: i64, factor: i64, lead: &[i64], shared: Option<u64>) -> Result<(), Wide> {
        let row = &mut self.entries[i * self.width..(i + 1) * self.width];
        let den = i128::from(self.den[i]) * i128::from(times);
        let sum = |(entry, other): (&i64, &i64)| {
            i128::from(*entry) * i128::from(times) + i128::from(*other) * i128::from(factor)
        };
        let mut divisor = shared.map_or(den.unsigned_abs(), u128::from);
        for sum in row.iter().zip(lead).map(sum) {
            if divisor == 1 {
                break;
            }
            divisor = gcd_wide(divisor, sum.unsigned_abs());
        }
        let mut most = den.unsigned_abs() / divisor;
        for (entry, other) in row.iter_mut().zip(lead) {
            let sum = sum((entry, other));
            let reduced = if divisor == 1 { sum } else { sum / divisor as i128 };
            most = most.max(reduced.unsigned_abs());
            *entry = reduced as i64;
        }
        if most >= LIMIT {
            return Err(self.wide(self.rows[i]));
        }
        self.den[i] = (den / divisor as i128) as i64;
        self.most[i] = most as u64;
        Ok(())
    }

    /// The vector of the space for a place of the basis: the primitive list of positive `own` at its coordinate, and of
    /// the numbers that it gives the rows.
    pub fn column(&self, place: usize) -> Result<(i128, Vec<i128>), Wide> {
        let wide = || self.wide(self.basis[place]);
        let mut common = 1u128;
        for (i, den) in self.den.iter().enumerate() {
            let own = den.unsigned_abs() / gcd(den.unsigned_abs(), self.entry(i, place).unsigned_abs());
            common = lcm(common, own.into(), LIMIT).ok_or_else(wide)?;
        }
        let mut numbers = Vec::with_capacity(self.rows.len());
        for (i, den) in self.den.iter().enumerate() {
            let entry = self.entry(i, place);
            let shared = gcd(den.unsigned_abs(), entry.unsigned_abs()) as i64;
            numbers.push(common as i128 / i128::from(den / shared) * i128::from(entry / shared));
            if numbers[i].unsigned_abs() >= LIMIT {
                return Err(wide());
            }
        }
        Ok((common as i128, numbers))
    }

    /// Takes as many columns as possible out of the basis, for rows that are not columns.
    pub fn eliminate(&mut self) -> Result<(), Wide> {
        for i in 0..self.rows.len() {
            // The least entry keeps numbers small.
            let mut least = (i64::MAX, 0);
            for (place, entry) in self.row(i).iter().enumerate() {
                if *entry != 0 && entry.abs() < least.0 && self.is_column(self.basis[place]) {
                    least = (entry.abs(), place);
                    if least.0 == 1 {
                        break;
                    }
                }
            }
            if least.0 < i64::MAX {
                self.exchange(i, least.1)?;
            }
        }
        Ok(())
    }
}

/// The dictionary of some reactions' vectors as columns, with species as rows, after as many columns as possible have
/// left the basis: these are a base of the vectors, and rows that are still of species have zeros at all columns.
pub fn eliminated(net: &Net, members: &[u32]) -> Result<Dictionary, Wide> {
    let (columns, species) = (members.len(), net.species.len());
    let mut made = Dictionary::new(columns, (0..columns as u32).collect(), species);
    made.rows = (columns as u32..(columns + species) as u32).collect();
    (made.den, made.most, made.is_primitive) = (vec![1; species], vec![127; species], vec![true; species]);
    made.entries = vec![0; columns * species];
    for (column, r) in members.iter().enumerate() {
        for (s, entry) in net.vector(*r as usize).enumerate() {
            made.entries[s * columns + column] = entry;
        }
    }
    made.eliminate()?;
    Ok(made)
}

/// A base of some vectors, and the dictionary that shows it.
pub struct Rank {
    /// Places among the members, ascending, each with its row.
    pub base: Vec<(u32, usize)>,
    pub dictionary: Dictionary,
    members: Vec<u32>,
    pub species: usize,
}

impl Rank {
    pub fn new(net: &Net, members: Vec<u32>) -> Result<Rank, Wide> {
        let dictionary = eliminated(net, &members)?;
        let rows = dictionary.rows.iter().enumerate().filter(|(_, c)| dictionary.is_column(**c));
        let mut base: Vec<(u32, usize)> = rows.map(|(i, c)| (*c, i)).collect();
        base.sort_unstable();
        Ok(Rank { base, dictionary, members, species: net.species.len() })
    }

    pub fn rank(&self) -> u32 {
        self.base.len() as u32
    }

    /// The numbers of the base's reactions.
    pub fn base(&self) -> Vec<u32> {
        self.base.iter().map(|(member, _)| self.members[*member as usize] + 1).collect()
    }

    /// A vector for member i of the base, whose product with each other member is zero.
    pub fn dual(&self, i: usize, into: &mut Vec<i64>) {
        into.clear();
        into.resize(self.species, 0);
        for (coordinate, entry) in self.dictionary.basis.iter().zip(self.dictionary.row(self.base[i].1)) {
            if !self.dictionary.is_column(*coordinate) {
                into[*coordinate as usize - self.dictionary.columns] = *entry;
            }
        }
        let divisor = into.iter().fold(0, |divisor, entry| gcd(divisor, entry.unsigned_abs()));
        into.iter_mut().for_each(|entry| *entry /= divisor as i64);
    }

    /// The members outside the base, ascending, each with its place in the basis.
    pub fn others(&self) -> Vec<(u32, usize)> {
        let places = self.dictionary.basis.iter().enumerate().filter(|(_, c)| self.dictionary.is_column(**c));
        let mut others: Vec<(u32, usize)> = places.map(|(place, c)| (*c, place)).collect();
        others.sort_unstable();
        others
    }

    /// The combination of the base for the member at this place: its own multiple, and those of the base.
    pub fn comb(&self, place: usize, into: &mut Vec<i128>) -> Result<(), Wide> {
        into.clear();
        into.push(1);
        let mut common = 1u128;
        for (_, i) in &self.base {
            let (den, entry) =
                (self.dictionary.den[*i] as u64, self.dictionary.entries[i * self.dictionary.width + place]);
            let own = u128::from(den / gcd(den, entry.unsigned_abs()));
            common = lcm(common, own, FREE).ok_or_else(|| self.dictionary.wide(self.dictionary.basis[place]))?;
        }
        into[0] = common as i128;
        for (member, i) in &self.base {
            let (den, entry) = (self.dictionary.den[*i], self.dictionary.entries[i * self.dictionary.width + place]);
            let shared = gcd(den.unsigned_abs(), entry.unsigned_abs()) as i64;
            let number = (common as i128 / i128::from(den / shared)).checked_mul((-entry / shared).into());
            match number.filter(|number| number.unsigned_abs() < FREE) {
                Some(number) => into.push(number),
                None => return Err(self.dictionary.wide(*member)),
            }
        }
        Ok(())
    }

    /// Every combination is small enough for a certificate.
    pub fn fits(&self) -> Result<(), Wide> {
        let mut comb = Vec::new();
        // Where the entries and the product of the denominators are small, so is every number.
        let dens = self.base.iter().try_fold(1u128, |product, (_, i)| {
            Some(product * self.dictionary.den[*i] as u128).filter(|product| *product < 1 << 60)
        });
        let most = self.base.iter().map(|(_, i)| u128::from(self.dictionary.most[*i])).max().unwrap_or(0);
        if dens.is_some_and(|dens| dens * most < FREE) {
            return Ok(());
        }
        self.others().iter().try_for_each(|(_, place)| self.comb(*place, &mut comb))
    }

    /// Whether all members can have positive weights whose combination is zero. The multipliers belong to species.
    pub fn dependence(&self) -> Result<Positive, Wide> {
        let old = &self.dictionary;
        let mut made = Dictionary::new(old.columns, old.basis.clone(), self.base.len());
        for (_, i) in &self.base {
            made.rows.push(old.rows[*i]);
            made.den.push(old.den[*i]);
            made.most.push(old.most[*i]);
            made.is_primitive.push(false);
            made.entries.extend_from_slice(old.row(*i));
        }
        made.positive(self.species)
    }

    /// Whether all species can have positive weights whose product with each member is zero. The multipliers belong to
    /// members. The dictionary is that of the transposed matrix: what was in the basis now depends on the rest.
    pub fn conservation(&self) -> Result<Positive, Wide> {
        let (old, members) = (&self.dictionary, self.members.len());
        let turned = |coordinate: u32| {
            if old.is_column(coordinate) { coordinate + self.species as u32 } else { coordinate - members as u32 }
        };
        let basis: Vec<u32> = old.rows.iter().map(|c| turned(*c)).collect();
        let mut made = Dictionary::new(self.species, basis, self.base.len());
        for (place, coordinate) in old.basis.iter().enumerate().filter(|(_, c)| !old.is_column(**c)) {
            let entry_of = |i: usize| (old.den[i].unsigned_abs(), old.entries[i * old.width + place]);
            let mut common = 1u128;
            for i in 0..old.rows.len() {
                let (den, entry) = entry_of(i);
                let own = u128::from(den / gcd(den, entry.unsigned_abs()));
                common = lcm(common, own, LIMIT).ok_or_else(|| made.wide(turned(*coordinate)))?;
            }
            let mut most = common as u64;
            for i in 0..old.rows.len() {
                let (den, entry) = entry_of(i);
                let shared = gcd(den, entry.unsigned_abs());
                let number = common as i128 / i128::from(den / shared) * i128::from(entry / shared as i64);
                if number.unsigned_abs() >= LIMIT {
                    return Err(made.wide(turned(*coordinate)));
                }
                most = most.max(number.unsigned_abs() as u64);
                made.entries.push(if old.is_column(old.rows[i]) { number } else { -number } as i64);
            }
            made.rows.push(turned(*coordinate));
            made.den.push(common as i64);
            made.most.push(most);
            made.is_primitive.push(true);
        }
        made.positive(members)
    }
}

impl Dictionary {
    /// Whether all columns of the matrix can be positive while all its rows, which are in the basis, are zero. The
    /// columns of the basis are 1 at first; Bland's rule finds what makes the others at least 1 too.
    fn positive(&mut self, rows: usize) -> Result<Positive, Wide> {
        loop {
            let mut chosen: Option<usize> = None;
            let mut is_done = true;
            let mut sums = Vec::with_capacity(self.rows.len());
            let is_column: Vec<bool> = self.basis.iter().map(|c| self.is_column(*c)).collect();
            for i in 0..self.rows.len() {
                let (mut sum, mut has_plus) = (0i128, false);
                for (entry, is_column) in self.row(i).iter().zip(&is_column) {
                    if *is_column {
                        sum += i128::from(*entry);
                        has_plus |= *entry > 0;
                    }
                }
                if !has_plus {
                    return Ok(Positive::No(self.multipliers(i, rows)));
                }
                is_done &= sum > 0;
                if sum < i128::from(self.den[i]) && chosen.is_none_or(|j| self.rows[i] < self.rows[j]) {
                    chosen = Some(i);
                }
                sums.push(sum);
            }
            let Some(i) = chosen.filter(|_| !is_done) else { return self.solution(&sums) };
            let row = self.row(i).iter().zip(&self.basis).enumerate();
            let pluses = row.filter(|(_, (entry, c))| **entry > 0 && self.is_column(**c));
            let place = pluses.min_by_key(|(_, (_, c))| **c).unwrap().0;
            self.exchange(i, place)?;
        }
    }

    fn multipliers(&self, i: usize, rows: usize) -> Vec<i128> {
        let mut multipliers = vec![0; rows];
        for (coordinate, entry) in self.basis.iter().zip(self.row(i)) {
            if !self.is_column(*coordinate) {
                multipliers[*coordinate as usize - self.columns] = -i128::from(*entry);
            }
        }
        let divisor = multipliers.iter().fold(0, |divisor, number| gcd_wide(divisor, number.unsigned_abs()));
        multipliers.iter_mut().for_each(|number| *number /= divisor as i128);
        multipliers
    }

    /// The columns, where each of the basis has the same value.
    fn solution(&self, sums: &[i128]) -> Result<Positive, Wide> {
        let mut common = 1u128;
        for (den, sum) in self.den.iter().zip(sums) {
            let own = *den as u128 / gcd_wide(*den as u128, sum.unsigned_abs());
            common = lcm(common, own, FREE).ok_or_else(|| self.wide(self.rows[0]))?;
        }
        let mut values = vec![common as i128; self.columns];
        for ((coordinate, den), sum) in self.rows.iter().zip(&self.den).zip(sums) {
            let shared = gcd_wide(*den as u128, sum.unsigned_abs()) as i128;
            let value = (common as i128 / (i128::from(*den) / shared)).checked_mul(sum / shared);
            match value.filter(|value| value.unsigned_abs() < FREE) {
                Some(value) => values[*coordinate as usize] = value,
                None => return Err(self.wide(*coordinate)),
            }
        }
        let divisor = values.iter().fold(0, |divisor, value| gcd_wide(divisor, value.unsigned_abs()));
        values.iter_mut().for_each(|value| *value /= divisor as i128);
        Ok(Positive::Yes(values))
    }
}
