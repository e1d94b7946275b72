//! The word operations on wide integers: every word is a number below 2^width, kept in 128 bits, so nothing overflows.

/// The names of the subs, 1 to 19.
pub const NAMES: [&str; 19] = [
    "plus", "minus", "times", "div", "sdiv", "mod", "smod", "and", "or", "xor", "lsl", "lsr", "asr", "eq", "neq", "lt",
    "le", "slt", "sle",
];

#[derive(Clone, Copy, Debug, PartialEq, Eq)]
pub struct Request {
    pub sub: u32,
    pub width: u32,
    pub a: u64,
    pub b: u64,
}

#[derive(Clone, Copy, Debug, PartialEq, Eq)]
pub enum Answer {
    Bad,
    Word(u64),
    Unknown,
}

impl Request {
    /// The 24 bytes that the driver reads.
    pub fn bytes(&self) -> Vec<u8> {
        let mut bytes = Vec::with_capacity(24);
        bytes.extend(self.sub.to_le_bytes());
        bytes.extend(self.width.to_le_bytes());
        bytes.extend(self.a.to_le_bytes());
        bytes.extend(self.b.to_le_bytes());
        bytes
    }
}

impl Answer {
    /// The kind's number, 0 to 2.
    pub fn kind(&self) -> u32 {
        match self {
            Answer::Bad => 0,
            Answer::Word(_) => 1,
            Answer::Unknown => 2,
        }
    }

    /// The 16 bytes that the driver writes.
    pub fn bytes(&self) -> [u8; 16] {
        let value = if let Answer::Word(x) = self { *x } else { 0 };
        let mut bytes = [0; 16];
        bytes[..4].copy_from_slice(&self.kind().to_le_bytes());
        bytes[8..].copy_from_slice(&value.to_le_bytes());
        bytes
    }
}

/// What a request must be answered.
pub fn answer(request: &Request) -> Answer {
    let Request { sub, width, a, b } = *request;
    if !(1..=19).contains(&sub) || !(1..=64).contains(&width) {
        return Answer::Bad;
    }
    let modulus = 1u128 << width;
    let (a, b) = (u128::from(a), u128::from(b));
    if a >= modulus || b >= modulus {
        return Answer::Bad;
    }
    if (4..=7).contains(&sub) && b == 0 {
        return Answer::Unknown;
    }
    Answer::Word(result(sub, modulus, a, b) as u64)
}

/// The word for a good request whose divisor isn't 0.
fn result(sub: u32, modulus: u128, a: u128, b: u128) -> u128 {
    let (sa, sb) = (signed(modulus, a), signed(modulus, b));
    match sub {
        1 => (a + b) % modulus,
        2 => word(modulus, a as i128 - b as i128),
        3 => (a * b) % modulus,
        4 => a / b,
        5 => word(modulus, sa / sb),
        6 => a % b,
        7 => word(modulus, sa % sb),
        8 => bit_by_bit(a, b, |x, y| x * y),
        9 => bit_by_bit(a, b, |x, y| x + y - x * y),
        10 => bit_by_bit(a, b, |x, y| (x + y) % 2),
        11 => a * power(b) % modulus,
        12 => a / power(b),
        13 => word(modulus, sa.div_euclid(power(b) as i128)),
        14 => (a == b).into(),
        15 => (a != b).into(),
        16 => (a < b).into(),
        17 => (a <= b).into(),
        18 => (sa < sb).into(),
        19 => (sa <= sb).into(),
        _ => unreachable!("sub {}", sub),
    }
}

/// The signed reading of a word.
fn signed(modulus: u128, a: u128) -> i128 {
    if a < modulus / 2 {
        a as i128
    } else {
        a as i128 - modulus as i128
    }
}

/// The word of a number, negative or not.
fn word(modulus: u128, x: i128) -> u128 {
    x.rem_euclid(modulus as i128) as u128
}

/// 2^b, or 2^64 where b is more: a shift by 64 and a longer one give the same at every width.
fn power(b: u128) -> u128 {
    1 << b.min(64)
}

/// The number whose binary digits are f of the digits of a and b.
fn bit_by_bit(a: u128, b: u128, f: fn(u128, u128) -> u128) -> u128 {
    (0..64).map(|i| f(a >> i & 1, b >> i & 1) << i).sum()
}

#[cfg(test)]
mod tests {
    use super::*;

    fn at_8(sub: u32, a: u64, b: u64) -> Answer {
        answer(&Request { sub, width: 8, a, b })
    }

    #[test]
    fn the_scopes_examples() {
        assert_eq!(at_8(5, 0x80, 0xFF), Answer::Word(0x80));
        assert_eq!(at_8(5, 0xF9, 2), Answer::Word(0xFD));
        assert_eq!(at_8(7, 0xF9, 2), Answer::Word(0xFF));
        assert_eq!(at_8(7, 7, 0xFE), Answer::Word(1));
        assert_eq!(at_8(13, 0x80, 8), Answer::Word(0xFF));
        assert_eq!(at_8(12, 0x80, 8), Answer::Word(0));
        assert_eq!(at_8(18, 0x80, 0x7F), Answer::Word(1));
        assert_eq!(at_8(16, 0x80, 0x7F), Answer::Word(0));
    }

    #[test]
    fn by_zero_is_unknown() {
        for sub in 4..=7 {
            assert_eq!(at_8(sub, 1, 0), Answer::Unknown);
        }
    }

    #[test]
    fn bad_arguments_are_refused() {
        assert_eq!(at_8(0, 1, 1), Answer::Bad);
        assert_eq!(at_8(20, 1, 1), Answer::Bad);
        assert_eq!(at_8(4, 0x100, 0), Answer::Bad);
        assert_eq!(at_8(1, 0, 0x100), Answer::Bad);
        assert_eq!(answer(&Request { sub: 1, width: 0, a: 0, b: 0 }), Answer::Bad);
        assert_eq!(answer(&Request { sub: 1, width: 65, a: 0, b: 0 }), Answer::Bad);
    }

    #[test]
    fn the_machine_agrees_at_64_bits() {
        let mut random = crate::random::Random::new(1);
        for _ in 0..10_000 {
            let (a, b) = (random.number(), random.number() >> random.below(64) | 1);
            let (sa, sb, by) = (a as i64, b as i64, b % 64);
            let expected = [
                a.wrapping_add(b),
                a.wrapping_sub(b),
                a.wrapping_mul(b),
                a / b,
                sa.wrapping_div(sb) as u64,
                a % b,
                sa.wrapping_rem(sb) as u64,
                a & b,
                a | b,
                a ^ b,
                a << by,
                a >> by,
                (sa >> by) as u64,
                (a == b) as u64,
                (a != b) as u64,
                (a < b) as u64,
                (a <= b) as u64,
                (sa < sb) as u64,
                (sa <= sb) as u64,
            ];
            for (sub, want) in (1..).zip(expected) {
                let b = if (11..=13).contains(&sub) { by } else { b };
                assert_eq!(
                    answer(&Request { sub, width: 64, a, b }),
                    Answer::Word(want),
                    "sub {} of {} and {}",
                    sub,
                    a,
                    b
                );
            }
        }
    }
}
