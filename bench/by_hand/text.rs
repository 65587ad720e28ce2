//! Text that is gathered, with room behind each place where a step begins.

use crate::program::Step;
use crate::tables::{digit_values, HEX_TEXT, ONES};

#[inline(always)]
pub fn put_hex(d: &mut [u8], b: &[u8]) {
    let n = b.len() / 16;
    for (d, b) in d.chunks_exact_mut(32).zip(b.chunks_exact(16)) {
        let mut t = [0u8; 32];
        for i in 0..16 {
            t[2 * i] = b[i] >> 4;
            t[2 * i + 1] = b[i] & 15;
        }
        for i in 0..32 {
            d[i] = t[i] + if t[i] > 9 { b'A' - 10 } else { b'0' };
        }
    }
    for (d, &x) in d[32 * n..].chunks_exact_mut(2).zip(&b[16 * n..]) {
        d.copy_from_slice(&HEX_TEXT[x as usize]);
    }
}

/// Text that is gathered.
pub struct Text {
    pub buf: Vec<u8>,
    pub pos: usize,
}

/// Room behind any place where a step begins.
pub const ROOM: usize = 256;

impl Text {
    #[inline(always)]
    pub fn room(&mut self, n: usize) {
        if self.buf.len() - self.pos < n + ROOM {
            self.grow(n);
        }
    }

    #[cold]
    #[inline(never)]
    pub fn grow(&mut self, n: usize) {
        let size = (self.buf.len() * 2).max(self.pos + n + ROOM);
        self.buf.resize(size, 0);
    }

    #[inline(always)]
    pub fn put<const N: usize>(&mut self, w: [u8; N], n: usize) {
        self.buf[self.pos..self.pos + N].copy_from_slice(&w);
        self.pos += n;
    }

    pub fn slice(&mut self, w: &[u8]) {
        self.room(w.len());
        self.buf[self.pos..self.pos + w.len()].copy_from_slice(w);
        self.pos += w.len();
    }

    #[inline(always)]
    pub fn lead(&mut self, s: &Step) {
        self.room(0);
        if s.lead_len <= 32 {
            self.put(s.lead, s.lead_len as usize);
        } else {
            self.slice(&s.long);
            self.room(0);
        }
    }

    #[inline(always)]
    pub fn number(&mut self, v: u64) {
        if v < 10 {
            self.put([b'0' + v as u8], 1);
        } else if v < 100_000_000 {
            let d = digit_values(v);
            let zeros = d.trailing_zeros() & !7;
            self.put(((d | 0x30 * ONES) >> zeros).to_le_bytes(), 8 - zeros as usize / 8);
        } else {
            self.long_number(v);
        }
    }

    #[inline(never)]
    pub fn long_number(&mut self, v: u64) {
        let (high, low) = (v / 100_000_000, v % 100_000_000);
        self.number(high);
        self.put((digit_values(low) | 0x30 * ONES).to_le_bytes(), 8);
    }

    #[inline(always)]
    pub fn int(&mut self, raw: u64, width: u32) {
        let v = (raw << (64 - width)) as i64 >> (64 - width);
        if v < 0 {
            self.put([b'-'], 1);
        }
        self.number(v.unsigned_abs());
    }

    #[inline(always)]
    pub fn float(&mut self, raw: u64, width: u32) {
        let b = (raw << (64 - width)).to_be_bytes();
        let mut t = [0u8; 18];
        t[0] = b'0';
        t[1] = b'x';
        for i in 0..8 {
            t[2 + 2 * i..4 + 2 * i].copy_from_slice(&HEX_TEXT[b[i] as usize]);
        }
        self.put(t, 2 + width as usize / 4);
    }

    #[inline(always)]
    pub fn truth(&mut self, v: u64) {
        if v == 1 {
            self.put(*b"true    ", 4)
        } else {
            self.put(*b"false   ", 5)
        }
    }
}
