//! AES-128 byte by byte, as FIPS 197 (2001) has it, with the 256 substitution values in a table. The steps of
//! a round are done in one pass, column by column: one after the other, as the standard writes them, they
//! take twice as long.
#![forbid(unsafe_code)]

pub use aes_names::cipher;

/// Section 4.2.1: a byte times x.
const fn xtime(b: u8) -> u8 {
    (b << 1) ^ ((b >> 7) * 0x1b)
}

/// Section 4.2: the product of two bytes.
const fn product(a: u8, b: u8) -> u8 {
    let (mut a, mut b, mut sum) = (a, b, 0);
    while b != 0 {
        if b & 1 == 1 {
            sum ^= a;
        }
        a = xtime(a);
        b >>= 1;
    }
    sum
}

/// Section 5.1.1: the inverse in the field (0 for 0), then the affine step.
const fn substitute(x: u8) -> u8 {
    let mut inverse = 1;
    let mut i = 0;
    while i < 254 {
        inverse = product(inverse, x);
        i += 1;
    }
    inverse
        ^ inverse.rotate_left(1)
        ^ inverse.rotate_left(2)
        ^ inverse.rotate_left(3)
        ^ inverse.rotate_left(4)
        ^ 0x63
}

const fn substitution_values() -> [u8; 256] {
    let mut values = [0; 256];
    let mut x = 0;
    while x < 256 {
        values[x] = substitute(x as u8);
        x += 1;
    }
    values
}

static SBOX: [u8; 256] = substitution_values();

/// Sections 5.1.1 and 5.1.2: the bytes that ShiftRows brings to column c, substituted.
fn shifted(s: &[u8; 16], c: usize) -> [u8; 4] {
    std::array::from_fn(|row| SBOX[s[(4 * c + 5 * row) % 16] as usize])
}

/// Section 5.1.3: MixColumns on one column.
fn mixed(a: [u8; 4]) -> [u8; 4] {
    let all = a[0] ^ a[1] ^ a[2] ^ a[3];
    [
        a[0] ^ all ^ xtime(a[0] ^ a[1]),
        a[1] ^ all ^ xtime(a[1] ^ a[2]),
        a[2] ^ all ^ xtime(a[2] ^ a[3]),
        a[3] ^ all ^ xtime(a[3] ^ a[0]),
    ]
}

/// Section 5.2: the key schedule.
fn key_expansion(key: [u8; 16]) -> [u8; 176] {
    let mut w = [0; 176];
    w[..16].copy_from_slice(&key);
    let mut rcon = 1;
    for i in (16..176).step_by(4) {
        let mut t = [w[i - 4], w[i - 3], w[i - 2], w[i - 1]];
        if i % 16 == 0 {
            t = [t[1], t[2], t[3], t[0]].map(|b| SBOX[b as usize]);
            t[0] ^= rcon;
            rcon = xtime(rcon);
        }
        for j in 0..4 {
            w[i + j] = w[i + j - 16] ^ t[j];
        }
    }
    w
}

#[derive(Clone, Debug)]
pub struct Aes128 {
    keys: [u8; 176],
}

impl Aes128 {
    /// The cipher under a key.
    pub fn with_key(key: [u8; 16]) -> Self {
        Self { keys: key_expansion(key) }
    }

    /// Section 5.1: the cipher on one block.
    pub fn encrypted(&self, block: [u8; 16]) -> [u8; 16] {
        let keys = &self.keys;
        let mut s = block;
        for i in 0..16 {
            s[i] ^= keys[i];
        }
        for round in 1..10 {
            let mut t = [0; 16];
            for c in 0..4 {
                let column = mixed(shifted(&s, c));
                for row in 0..4 {
                    t[4 * c + row] = column[row] ^ keys[16 * round + 4 * c + row];
                }
            }
            s = t;
        }
        let mut t = [0; 16];
        for i in 0..16 {
            t[i] = SBOX[s[(i + 4 * (i % 4)) % 16] as usize] ^ keys[160 + i];
        }
        t
    }
}

impl aes_names::Cipher16 for Aes128 {
    fn new(key: [u8; 16]) -> Self {
        Self::with_key(key)
    }

    #[inline(always)]
    fn encrypt(&self, block: [u8; 16]) -> [u8; 16] {
        self.encrypted(block)
    }
}
