//! The text of a value as bytes.

use crate::program::{Op, Program, Step};
use crate::tables::{eight_digits, load_eight, load_sixteen, NOT_HEX, ONES};

/// Bits that are written one behind the other; what stands behind them is overwritten.
pub struct Bits {
    pub buf: Vec<u8>,
    pub place: usize,
}

impl Bits {
    #[inline(always)]
    pub fn room(&mut self, bytes: usize) {
        if self.buf.len() < self.place / 8 + bytes + 32 {
            self.buf.resize(2 * self.buf.len() + bytes + 32, 0);
        }
    }

    /// The low `width` bits of a number that has no others.
    #[inline(always)]
    pub fn put(&mut self, v: u64, width: u32) {
        self.room(0);
        let (p, s) = (self.place / 8, (self.place % 8) as u32);
        let front = self.buf[p] as u64 & ((1 << s) - 1);
        self.buf[p..p + 8].copy_from_slice(&(front | v << s).to_le_bytes());
        self.buf[p + 8] = if s == 0 { 0 } else { (v >> (64 - s)) as u8 };
        self.place += width as usize;
    }

    #[inline(always)]
    pub fn align(&mut self) {
        // Bits behind the place are zeros, since numbers have no others.
        if self.place % 8 == 0 {
            return;
        }
        self.place = (self.place + 7) & !7;
    }
}

/// A whole number by sign and magnitude, canonical; the place behind it.
#[inline(always)]
pub fn number_at(t: &[u8], mut p: usize) -> Option<(bool, u64, usize)> {
    let negative = t[p] == b'-';
    p += negative as usize;
    let w = load_eight(&t[p..]);
    let x = w ^ 0x30 * ONES;
    // The lanes that are no digit.
    let other = (x | (x.wrapping_add(0x76 * ONES))) & 0x80 * ONES;
    let n = (other.trailing_zeros() / 8) as usize;
    if n < 8 {
        if n == 0 || (t[p] == b'0' && (n > 1 || negative)) {
            return None;
        }
        let v = eight_digits(w << (64 - 8 * n));
        return Some((negative, v, p + n));
    }
    if t[p] == b'0' {
        return None;
    }
    let mut v = eight_digits(w);
    p += 8;
    for _ in 0..13 {
        let d = t[p].wrapping_sub(b'0');
        if d > 9 {
            if negative && v > 1 << 63 {
                return None;
            }
            return Some((negative, v, p));
        }
        v = v.checked_mul(10)?.checked_add(d as u64)?;
        p += 1;
    }
    None
}

#[inline(always)]
pub fn cast_unsigned(negative: bool, v: u64, width: u32, saturated: bool) -> u64 {
    let most = u64::MAX >> (64 - width);
    if saturated {
        if negative {
            0
        } else {
            v.min(most)
        }
    } else {
        (if negative { v.wrapping_neg() } else { v }) & most
    }
}

#[inline(always)]
pub fn cast_signed(negative: bool, v: u64, width: u32) -> u64 {
    let most = u64::MAX >> (64 - width);
    let half = 1u64 << (width - 1);
    if negative {
        v.min(half).wrapping_neg() & most
    } else {
        v.min(half - 1)
    }
}

/// Four upper-case digits of a block of eight as two bytes each, by a table.
pub const fn upper_values() -> [u16; 65536] {
    let d = b"0123456789ABCDEF";
    let mut t = [NOT_HEX; 65536];
    let mut i = 0;
    while i < 256 {
        let (h, l) = (i / 16, i % 16);
        t[d[h] as usize | (d[l] as usize) << 8] = i as u16;
        i += 1;
    }
    t
}
pub static UPPER_VALUE: [u16; 65536] = upper_values();

#[inline(always)]
pub fn upper_pair(t: &[u8], p: usize) -> u16 {
    UPPER_VALUE[u16::from_le_bytes(t[p..p + 2].try_into().unwrap()) as usize]
}

/// `0x` and the digits of a float.
#[inline(always)]
pub fn float_at(t: &[u8], p: usize, width: u32) -> Option<(u64, usize)> {
    if t[p] != b'0' || t[p + 1] != b'x' {
        return None;
    }
    let (mut v, mut bad) = (0u64, 0);
    for i in 0..width as usize / 8 {
        let x = upper_pair(t, p + 2 + 2 * i);
        bad |= x;
        v = v << 8 | (x & 255) as u64;
    }
    if bad >= NOT_HEX {
        None
    } else {
        Some((v, p + 2 + width as usize / 4))
    }
}

#[inline(always)]
pub fn scan_one(op: Op, s: &Step, t: &[u8], p: usize, to: &mut Bits) -> Option<usize> {
    let w = s.width as u32;
    match op {
        Op::Bool => {
            let x = u32::from_le_bytes(t[p..p + 4].try_into().unwrap());
            if x == u32::from_le_bytes(*b"true") {
                to.put(1, 1);
                Some(p + 4)
            } else if x == u32::from_le_bytes(*b"fals") && t[p + 4] == b'e' {
                to.put(0, 1);
                Some(p + 5)
            } else {
                None
            }
        }
        Op::Uint => {
            let (negative, v, q) = number_at(t, p)?;
            to.put(cast_unsigned(negative, v, w, s.saturated), w);
            Some(q)
        }
        Op::Int => {
            let (negative, v, q) = number_at(t, p)?;
            to.put(cast_signed(negative, v, w), w);
            Some(q)
        }
        _ => {
            let (v, q) = float_at(t, p, w)?;
            to.put(v, w);
            Some(q)
        }
    }
}

impl Program {
    /// Runs steps over the text from `p` on: the place behind. Behind the text stand zeros.
    pub fn scan(&self, steps: &[Step], t: &[u8], mut p: usize, to: &mut Bits) -> Option<usize> {
        for s in steps {
            match s.op {
                Op::Skip => {
                    to.put(0, s.width as u32);
                    continue;
                }
                Op::Align => {
                    to.align();
                    continue;
                }
                _ => {}
            }
            let n = s.lead_len as usize;
            if n <= 16 {
                if n > 0 && (load_sixteen(&t[p..]) ^ load_sixteen(&s.lead)) << (128 - 8 * n) != 0 {
                    return None;
                }
            } else if t[p..].get(..n)? != &s.long[..] {
                return None;
            }
            p += n;
            match s.op {
                Op::Bool | Op::Uint | Op::Int | Op::Float => p = scan_one(s.op, s, t, p, to)?,
                Op::Bytes => p = self.scan_bytes(s, t, p, to)?,
                Op::Row => {
                    let header = to.place;
                    if !s.fixed {
                        to.put(0, s.prefix as u32);
                    }
                    let most = s.count;
                    let mut n = 0;
                    macro_rules! row {
                        ($op:expr) => {
                            while n < most && (s.fixed || t[p] != b']') {
                                if n > 0 {
                                    if t[p] != b',' || t[p + 1] != b' ' {
                                        return None;
                                    }
                                    p += 2;
                                }
                                p = scan_one($op, s, t, p, to)?;
                                n += 1;
                            }
                        };
                    }
                    match s.item {
                        Op::Bool => row!(Op::Bool),
                        Op::Uint => row!(Op::Uint),
                        Op::Int => row!(Op::Int),
                        _ => row!(Op::Float),
                    }
                    if !s.fixed {
                        self.count_at(to, header, n, s.prefix);
                    }
                }
                Op::Parts => {
                    let header = to.place;
                    if !s.fixed {
                        to.put(0, s.prefix as u32);
                    }
                    let mut n = 0;
                    while n < s.count && (s.fixed || t[p] != b']') {
                        if n > 0 {
                            if t[p] != b',' || t[p + 1] != b' ' {
                                return None;
                            }
                            p += 2;
                        }
                        p = self.scan(&self.parts[s.sub as usize], t, p, to)?;
                        n += 1;
                    }
                    if !s.fixed {
                        self.count_at(to, header, n, s.prefix);
                    }
                }
                Op::Delimited => {
                    let header = to.place;
                    to.put(0, 32);
                    p = self.scan(&self.parts[s.sub as usize], t, p, to)?;
                    let n = (to.place - header - 32) / 8;
                    self.count_at(to, header, n as u32, 32);
                }
                Op::Union => {
                    // The variant by its name, which is the lead of its program.
                    let mut found = None;
                    for k in 0..s.count {
                        let lead = self.parts[(s.sub + k) as usize].iter().find(|x| x.lead_len > 0).unwrap();
                        // A lead of a nested composite goes on behind the name.
                        if t[p..].starts_with(&lead.long) {
                            found = Some(k);
                            break;
                        }
                    }
                    let tag = found?;
                    to.put(tag as u64, s.prefix as u32);
                    p = self.scan(&self.parts[(s.sub + tag) as usize], t, p, to)?;
                }
                _ => {}
            }
        }
        Some(p)
    }

    /// Writes a number of whole bytes at an earlier place.
    #[inline(always)]
    pub fn count_at(&self, to: &mut Bits, place: usize, n: u32, bits: u8) {
        if place % 8 == 0 {
            let p = place / 8;
            match bits {
                8 => to.buf[p] = n as u8,
                16 => to.buf[p..p + 2].copy_from_slice(&(n as u16).to_le_bytes()),
                _ => to.buf[p..p + 4].copy_from_slice(&n.to_le_bytes()),
            }
            return;
        }
        for k in 0..bits as usize {
            let q = place + k;
            to.buf[q / 8] |= ((n >> k & 1) as u8) << (q % 8);
        }
    }

    pub fn scan_bytes(&self, s: &Step, t: &[u8], mut p: usize, to: &mut Bits) -> Option<usize> {
        let most = s.count as usize;
        if t[p] == b'#' {
            p += 1;
            let header = to.place;
            if !s.fixed {
                to.put(0, s.prefix as u32);
            }
            to.room(most + 8);
            let mut n = 0;
            if to.place % 8 == 0 {
                let d = &mut to.buf[to.place / 8..to.place / 8 + most];
                for (d, x) in d.iter_mut().zip(t[p..].chunks_exact(2)) {
                    let v = UPPER_VALUE[u16::from_le_bytes([x[0], x[1]]) as usize];
                    if v >= NOT_HEX {
                        break;
                    }
                    *d = v as u8;
                    n += 1;
                }
                to.place += 8 * n;
            } else {
                while n < most {
                    let v = upper_pair(t, p + 2 * n);
                    if v >= NOT_HEX {
                        break;
                    }
                    to.put(v as u64, 8);
                    n += 1;
                }
            }
            if s.fixed {
                return if n == most { Some(p + 2 * n) } else { None };
            }
            self.count_at(to, header, n as u32, s.prefix);
            return Some(p + 2 * n);
        }
        // Items in brackets, of which one at least is no byte.
        if t[p] != b'[' {
            return None;
        }
        p += 1;
        let header = to.place;
        if !s.fixed {
            to.put(0, s.prefix as u32);
        }
        let (mut n, mut wide) = (0, false);
        while n < most && (s.fixed || t[p] != b']') {
            if n > 0 {
                if t[p] != b',' || t[p + 1] != b' ' {
                    return None;
                }
                p += 2;
            }
            let (negative, v, q) = number_at(t, p)?;
            wide |= negative || v > 255;
            to.put(cast_unsigned(negative, v, 8, s.saturated), 8);
            p = q;
            n += 1;
        }
        if !s.fixed {
            self.count_at(to, header, n as u32, s.prefix);
        }
        if t[p] != b']' || !wide {
            None
        } else {
            Some(p + 1)
        }
    }
}
