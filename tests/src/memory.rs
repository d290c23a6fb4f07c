//! Memory that is lent to a call of the product, with all that lies around it watched.

use crate::random::Random;

/// What an area holds before a call.
#[derive(Clone, Copy, Debug, PartialEq, Eq)]
pub enum Content {
    Zeros,
    Ones,
    Random,
    /// Numbers below 4,096: places that a call could take for its own.
    Small,
    /// What the call before left there.
    Left,
}

pub const CONTENTS: [Content; 5] = [
    Content::Zeros,
    Content::Ones,
    Content::Random,
    Content::Small,
    Content::Left,
];

/// At least so many numbers before and after the lent ones are not lent.
const GUARD: usize = 8;

/// The lent part begins at any address that its numbers allow, as seen in so many bytes.
const ADDRESSES: usize = 64;

/// A number of an area.
pub trait Number: Copy + Default + PartialEq {
    /// The lowest of 64 bits.
    fn cut(bits: u64) -> Self;
}

impl Number for u8 {
    fn cut(bits: u64) -> u8 {
        bits as u8
    }
}

impl Number for u16 {
    fn cut(bits: u64) -> u16 {
        bits as u16
    }
}

impl Number for u64 {
    fn cut(bits: u64) -> u64 {
        bits
    }
}

/// Numbers of which some that follow one another are lent.
pub struct Area<T> {
    numbers: Vec<T>,
    before_the_call: Vec<T>,
    /// Where the lent part begins, and its length.
    start: usize,
    length: usize,
    /// Whether the pointer to an empty part is null.
    null: bool,
}

impl<T: Number> Default for Area<T> {
    fn default() -> Area<T> {
        Area {
            numbers: vec![T::default(); 2 * GUARD],
            before_the_call: vec![T::default(); 2 * GUARD],
            start: GUARD,
            length: 0,
            null: false,
        }
    }
}

impl<T: Number> Area<T> {
    /// Where the lent part ends.
    fn end(&self) -> usize {
        self.start + self.length
    }

    pub fn lent(&self) -> &[T] {
        &self.numbers[self.start..self.end()]
    }

    /// The pointer and the length that a call is given.
    pub fn lend(&mut self) -> (*mut T, usize) {
        if self.is_null() {
            return (std::ptr::null_mut(), 0);
        }
        let end = self.end();
        (self.numbers[self.start..end].as_mut_ptr(), self.length)
    }

    fn is_null(&self) -> bool {
        self.null && self.length == 0
    }

    /// Takes another place for so many numbers.
    fn move_to(&mut self, length: usize, random: &mut Random) {
        self.start = GUARD + random.below(ADDRESSES / size_of::<T>());
        self.null = random.once_in(2);
        self.length = length;
    }
}

impl Area<u8> {
    /// Puts in bytes that a call is to read. Others lie behind them, and then some kind around all.
    pub fn put(
        &mut self,
        bytes: &[u8],
        behind: &[u8],
        random: &mut Random,
        mut around: impl FnMut(&mut Random) -> u8,
    ) {
        self.move_to(bytes.len(), random);
        self.numbers.clear();
        self.numbers.extend((0..self.start).map(|_| around(random)));
        self.numbers.extend(bytes);
        self.numbers.extend(behind);
        self.numbers.extend((0..GUARD).map(|_| around(random)));
        self.before_the_call.clone_from(&self.numbers);
    }
}

/// What is done with an area whatever its numbers are.
pub trait Watched {
    /// Makes the area ready for a call. Where it is as the call before left it, it stays in place.
    fn prepare(&mut self, length: usize, content: Content, random: &mut Random);

    /// Whether a call changed nothing but the first numbers of the lent part.
    fn unchanged_but(&self, first: usize) -> bool;

    /// The address that a call is given.
    fn address(&self) -> usize;

    /// The size of a number in bytes.
    fn size(&self) -> usize;
}

impl<T: Number> Watched for Area<T> {
    fn prepare(&mut self, length: usize, content: Content, random: &mut Random) {
        match content {
            Content::Left => self.length = length,
            _ => self.move_to(length, random),
        }
        self.numbers.resize(self.end() + GUARD, T::default());
        match content {
            Content::Left => (),
            Content::Zeros => self.numbers.fill(T::cut(0)),
            Content::Ones => self.numbers.fill(T::cut(u64::MAX)),
            Content::Small => self.numbers.fill_with(|| T::cut(random.bits() & 0xFFF)),
            Content::Random => self.numbers.fill_with(|| T::cut(random.bits())),
        }
        self.before_the_call.clone_from(&self.numbers);
    }

    fn unchanged_but(&self, first: usize) -> bool {
        let free_end = self.start + first.min(self.length);
        self.numbers[..self.start] == self.before_the_call[..self.start]
            && self.numbers[free_end..] == self.before_the_call[free_end..]
    }

    fn address(&self) -> usize {
        match self.is_null() {
            true => 0,
            false => self.lent().as_ptr() as usize,
        }
    }

    fn size(&self) -> usize {
        size_of::<T>()
    }
}
