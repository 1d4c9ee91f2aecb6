//! A network, the canonical text of its complexes, and small tools that several modules use.

use std::ffi::{c_int, c_void};
use std::hash::{BuildHasherDefault, Hasher};

pub const MAX_SPECIES: usize = 60;
pub const MAX_COMPLEXES: usize = 160;
pub const MAX_REACTIONS: usize = 240;
pub const MAX_AMOUNT: u32 = 99;
pub const MAX_NAME: usize = 32;

/// A hash of a few operations for each eight bytes.
#[derive(Default)]
pub struct Quick(u64);

impl Quick {
    fn mix(&mut self, word: u64) {
        self.0 = (self.0.rotate_left(26) ^ word).wrapping_mul(0xf135_7aea_2e62_a9c5);
    }
}

impl Hasher for Quick {
    fn write(&mut self, bytes: &[u8]) {
        let mut chunks = bytes.chunks_exact(8);
        for chunk in &mut chunks {
            self.mix(u64::from_le_bytes(chunk.try_into().unwrap()));
        }
        let rest = chunks.remainder().iter().rev();
        self.mix(rest.fold(0, |word, byte| word << 8 | u64::from(*byte)));
    }

    fn write_usize(&mut self, number: usize) {
        self.mix(number as u64);
    }

    fn finish(&self) -> u64 {
        self.0.rotate_left(20)
    }
}

pub type Quickly = BuildHasherDefault<Quick>;

unsafe extern "C" {
    fn memchr(bytes: *const c_void, byte: c_int, count: usize) -> *const c_void;
}

/// The place of the first such byte, or the end.
pub fn find(byte: u8, bytes: &[u8]) -> usize {
    // SAFETY: the C library looks at the bytes of the slice alone, and answers null or a place among them.
    unsafe {
        let start = bytes.as_ptr().cast::<c_void>();
        let place = memchr(start, c_int::from(byte), bytes.len());
        if place.is_null() { bytes.len() } else { place.byte_offset_from(start) as usize }
    }
}

/// What a byte can be in a name: 2 anywhere, 1 anywhere but at its start.
pub const NAME: [u8; 256] = {
    let mut table = [0; 256];
    let mut byte = 0;
    while byte < 256 {
        table[byte] = match byte as u8 {
            b'a'..=b'z' | b'A'..=b'Z' | b'_' => 2,
            b'0'..=b'9' => 1,
            _ => 0,
        };
        byte += 1;
    }
    table
};

/// The amounts of a complex, by species.
pub type Row = [u8; MAX_SPECIES];

pub struct Net {
    pub species: Vec<Box<[u8]>>,
    pub complexes: Vec<Row>,
    /// Reactant and product.
    pub reactions: Vec<(u32, u32)>,
    /// The complexes as they are written, one after the other, and where each ends.
    sides: Vec<u8>,
    ends: Vec<u32>,
}

impl Net {
    pub fn new(species: Vec<Box<[u8]>>, complexes: Vec<Row>, reactions: Vec<(u32, u32)>) -> Net {
        let (mut sides, mut ends) = (Vec::with_capacity(1024), Vec::with_capacity(complexes.len()));
        for row in &complexes {
            let start = sides.len();
            for (name, amount) in species.iter().zip(row).filter(|(_, amount)| **amount > 0) {
                if sides.len() > start {
                    sides.extend_from_slice(b" + ");
                }
                if *amount > 1 {
                    put_number(&mut sides, i128::from(*amount));
                }
                sides.extend_from_slice(name);
            }
            if sides.len() == start {
                sides.push(b'0');
            }
            ends.push(sides.len() as u32);
        }
        Net { species, complexes, reactions, sides, ends }
    }

    /// A complex as it is written.
    pub fn side(&self, c: usize) -> &[u8] {
        let start = if c == 0 { 0 } else { self.ends[c - 1] as usize };
        &self.sides[start..self.ends[c] as usize]
    }

    pub fn put_reaction(&self, r: usize, out: &mut Vec<u8>) {
        let (y, z) = self.reactions[r];
        out.extend_from_slice(self.side(y as usize));
        out.extend_from_slice(b" -> ");
        out.extend_from_slice(self.side(z as usize));
        out.push(b'\n');
    }

    /// Product minus reactant.
    pub fn vector(&self, r: usize) -> impl Iterator<Item = i64> {
        let (y, z) = self.reactions[r];
        let (y, z) = (&self.complexes[y as usize], &self.complexes[z as usize]);
        y.iter().zip(z).map(|(y, z)| i64::from(*z) - i64::from(*y)).take(self.species.len())
    }

    /// The product of numbers of the species with each complex.
    pub fn products(&self, numbers: &[i128]) -> Vec<i128> {
        let product = |row: &Row| numbers.iter().zip(row).map(|(x, amount)| x * i128::from(*amount)).sum();
        self.complexes.iter().map(product).collect()
    }

    /// The combination of the reaction vectors with the numbers, by species.
    pub fn combination(&self, numbers: &[i128]) -> Vec<i128> {
        let mut flows = vec![0i128; self.complexes.len()];
        for ((y, z), x) in self.reactions.iter().zip(numbers) {
            flows[*y as usize] -= x;
            flows[*z as usize] += x;
        }
        let mut sums = vec![0i128; self.species.len()];
        for (row, flow) in self.complexes.iter().zip(&flows).filter(|(_, flow)| **flow != 0) {
            sums.iter_mut().zip(row).for_each(|(sum, amount)| *sum += flow * i128::from(*amount));
        }
        sums
    }
}

pub fn put_number(out: &mut Vec<u8>, number: i128) {
    let mut digits = [0; 40];
    let mut at = digits.len();
    let mut rest = number.unsigned_abs();
    while rest > u128::from(u64::MAX) {
        at -= 1;
        digits[at] = b'0' + (rest % 10) as u8;
        rest /= 10;
    }
    let mut rest = rest as u64;
    loop {
        at -= 1;
        digits[at] = b'0' + (rest % 10) as u8;
        rest /= 10;
        if rest == 0 {
            break;
        }
    }
    if number < 0 {
        out.push(b'-');
    }
    out.extend_from_slice(&digits[at..]);
}

/// The numbers, each with a space before it, and a line's end.
pub fn put_numbers<T: Copy + Into<i128>>(out: &mut Vec<u8>, numbers: &[T]) {
    for number in numbers {
        out.push(b' ');
        put_number(out, (*number).into());
    }
    out.push(b'\n');
}

pub fn gcd(x: u64, y: u64) -> u64 {
    if x == 0 || y == 0 {
        return x | y;
    }
    let (mut x, mut y, shift) = (x >> x.trailing_zeros(), y, (x | y).trailing_zeros());
    loop {
        y >>= y.trailing_zeros();
        if x > y {
            std::mem::swap(&mut x, &mut y);
        }
        y -= x;
        if y == 0 {
            return x << shift;
        }
    }
}

pub fn gcd_wide(x: u128, y: u128) -> u128 {
    let (mut x, mut y) = (x, y);
    while y != 0 {
        if let (Ok(x), Ok(y)) = (u64::try_from(x), u64::try_from(y)) {
            return u128::from(gcd(x, y));
        }
        (x, y) = (y, x % y);
    }
    x
}
