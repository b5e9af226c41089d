//! Fields of bits (000, section 2; 01, "Bits and books").
//!
//! Fields fill bytes from the low bit up. A field that does not fit whole is a
//! cut; after a cut nothing more is read from the packet, not even 0 bits.

/// A field or codeword ran past the end of the packet.
#[derive(Clone, Copy, Debug, PartialEq, Eq)]
pub struct Cut {
    /// The bit, counted from 0, at which the field or codeword began.
    pub place: u64,
}

/// The place of the highest set bit, 0 for 0 (000, section 9.2.1).
pub fn ilog(value: u32) -> u32 {
    u32::BITS - value.leading_zeros()
}

/// The field of `width` bits, at most 64, at a bit position, or `None` where it
/// runs past the end. A position past the end is a cut even for 0 bits.
pub fn read_field(packet: &[u8], position: u64, width: u32) -> Option<u64> {
    assert!(width <= u64::BITS);
    let end = u128::from(position) + u128::from(width);
    if end > 8 * packet.len() as u128 {
        return None;
    }
    let bit = |i: u32| {
        let at = u128::from(position) + u128::from(i);
        u64::from(packet[(at / 8) as usize] >> (at % 8) & 1)
    };
    Some((0..width).fold(0, |value, i| value | bit(i) << i))
}

/// Reads a packet from its first bit to its last.
#[derive(Clone, Debug)]
pub struct Cursor<'a> {
    packet: &'a [u8],
    /// The byte and the bit in it, below 8, that come next.
    byte: usize,
    bit: u32,
    /// Set by the first read that ran past the end.
    ended: bool,
}

impl<'a> Cursor<'a> {
    /// At the first bit of a packet.
    pub fn new(packet: &'a [u8]) -> Self {
        Cursor { packet, byte: 0, bit: 0, ended: false }
    }

    /// At a bit position; one past the end makes every read a cut.
    pub fn at(packet: &'a [u8], position: u64) -> Self {
        let inside = u128::from(position) <= 8 * packet.len() as u128;
        let byte = if inside { (position / 8) as usize } else { packet.len() };
        let bit = if inside { (position % 8) as u32 } else { 0 };
        Cursor { packet, byte, bit, ended: !inside }
    }

    /// The position of the next bit; past 64 bits, 2^64 - 1 (02, wish 9).
    pub fn position(&self) -> u64 {
        let position = 8 * self.byte as u128 + u128::from(self.bit);
        u64::try_from(position).unwrap_or(u64::MAX)
    }

    /// Whether a read ran past the end.
    pub fn has_ended(&self) -> bool {
        self.ended
    }

    /// A field of at most 32 bits.
    pub fn field(&mut self, width: u32) -> Result<u32, Cut> {
        assert!(width <= u32::BITS);
        let cut = Cut { place: self.position() };
        if !self.holds(width) {
            self.ended = true;
            return Err(cut);
        }
        let mut value = 0;
        for i in 0..width {
            value |= self.step() << i;
        }
        Ok(value)
    }

    /// The next bit, or `None` at the end.
    pub fn next_bit(&mut self) -> Option<u32> {
        if self.holds(1) {
            Some(self.step())
        } else {
            self.ended = true;
            None
        }
    }

    /// A flag of one bit.
    pub fn flag(&mut self) -> Result<bool, Cut> {
        Ok(self.field(1)? == 1)
    }

    /// How many bits are left, at most what a `usize` holds; none after a cut.
    pub fn bits_left(&self) -> usize {
        if self.ended {
            return 0;
        }
        (self.packet.len() - self.byte).saturating_mul(8) - self.bit as usize
    }

    fn holds(&self, width: u32) -> bool {
        !self.ended && width as usize <= self.bits_left()
    }

    /// The next bit, which is there.
    fn step(&mut self) -> u32 {
        let value = u32::from(self.packet[self.byte]) >> self.bit & 1;
        self.bit += 1;
        if self.bit == 8 {
            self.bit = 0;
            self.byte += 1;
        }
        value
    }
}
