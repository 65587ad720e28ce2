//! Bytes as the text of a value.

use crate::program::{Op, Program, Step};
use crate::tables::{load_eight, HEX_TEXT};
use crate::text::{put_hex, Text};

/// Why bytes can't be read.
pub struct Bad {
    /// Where, joined at each level.
    pub path: String,
    pub why: &'static str,
    pub number: u64,
}

impl Bad {
    #[cold]
    pub fn new(path: &str, why: &'static str, number: u64) -> Box<Bad> {
        Box::new(Bad { path: path.into(), why, number })
    }

    #[cold]
    pub fn below(mut self: Box<Bad>, front: &str) -> Box<Bad> {
        let dot = if self.path.is_empty() || self.path.starts_with('[') || front.is_empty() { "" } else { "." };
        self.path = format!("{front}{dot}{}", self.path);
        self
    }

    pub fn text(&self) -> String {
        let path = if self.path.is_empty() { "." } else { &self.path };
        format!("{} {} at {path}", self.why, self.number)
    }
}

/// The number of `width` bits at a place; bits from `end` on are zeros. Behind the bytes stand eight more.
#[inline(always)]
pub fn bits_at(b: &[u8], end: usize, place: usize, width: u32) -> u64 {
    if place + width as usize <= end {
        let p = place / 8;
        let s = (place % 8) as u32;
        let mut v = load_eight(&b[p..]) >> s;
        if s + width > 64 {
            v |= (b[p + 8] as u64) << (64 - s);
        }
        v & (u64::MAX >> (64 - width))
    } else {
        bits_near_end(b, end, place, width)
    }
}

#[cold]
#[inline(never)]
pub fn bits_near_end(b: &[u8], end: usize, place: usize, width: u32) -> u64 {
    let mut v = 0;
    for k in 0..width as usize {
        let p = place + k;
        if p < end {
            v |= (b[p / 8] as u64 >> (p % 8) & 1) << k;
        }
    }
    v
}

/// One primitive at a place.
#[inline(always)]
pub fn print_one(op: Op, width: u32, b: &[u8], end: usize, place: usize, out: &mut Text) {
    let v = bits_at(b, end, place, width);
    match op {
        Op::Bool => out.truth(v),
        Op::Uint => out.number(v),
        Op::Int => out.int(v, width),
        _ => out.float(v, width),
    }
}

impl Program {
    /// Runs steps over the bits from `place` up to `end`, and goes behind them.
    pub fn print(
        &self,
        steps: &[Step],
        b: &[u8],
        end: usize,
        place: &mut usize,
        out: &mut Text,
    ) -> Result<(), Box<Bad>> {
        let mut p = *place;
        for s in steps {
            match s.op {
                Op::Skip => {
                    p += s.width as usize;
                    continue;
                }
                Op::Align => {
                    p = (p + 7) & !7;
                    continue;
                }
                _ => {}
            }
            out.lead(s);
            let w = s.width as u32;
            match s.op {
                Op::Bool | Op::Uint | Op::Int | Op::Float => {
                    print_one(s.op, w, b, end, p, out);
                    p += w as usize;
                }
                Op::Bytes | Op::Row | Op::Parts => {
                    let mut n = s.count as usize;
                    if !s.fixed {
                        let k = bits_at(b, end, p, s.prefix as u32);
                        if k > n as u64 {
                            return Err(Bad::new(&s.path, "BadLength", k));
                        }
                        n = k as usize;
                        p += s.prefix as usize;
                    }
                    match s.op {
                        Op::Bytes => {
                            out.room(2 * n);
                            if p % 8 == 0 && p + 8 * n <= end {
                                let d = &mut out.buf[out.pos..out.pos + 2 * n];
                                put_hex(d, &b[p / 8..p / 8 + n]);
                                out.pos += 2 * n;
                            } else {
                                for i in 0..n {
                                    let x = bits_at(b, end, p + 8 * i, 8);
                                    out.put(HEX_TEXT[x as usize], 2);
                                }
                            }
                            p += 8 * n;
                        }
                        Op::Row => {
                            out.room(24 * n);
                            // One loop a kind.
                            macro_rules! row {
                                ($op:expr) => {
                                    for i in 0..n {
                                        if i > 0 {
                                            out.put(*b", ", 2);
                                        }
                                        print_one($op, w, b, end, p, out);
                                        p += w as usize;
                                    }
                                };
                            }
                            match s.item {
                                Op::Bool => row!(Op::Bool),
                                Op::Uint => row!(Op::Uint),
                                Op::Int => row!(Op::Int),
                                _ => row!(Op::Float),
                            }
                        }
                        _ => {
                            for i in 0..n {
                                if i > 0 {
                                    out.put(*b", ", 2);
                                }
                                if let Err(bad) = self.print(&self.parts[s.sub as usize], b, end, &mut p, out) {
                                    return Err(bad.below(&format!("{}[{i}]", s.path)));
                                }
                            }
                        }
                    }
                }
                Op::Delimited => {
                    let n = bits_at(b, end, p, 32) as usize;
                    p += 32;
                    if 8 * n > end.saturating_sub(p) {
                        return Err(Bad::new(&s.path, "BadDelimiter", n as u64));
                    }
                    let (mut q, stop) = (p, p + 8 * n);
                    if let Err(bad) = self.print(&self.parts[s.sub as usize], b, stop, &mut q, out) {
                        return Err(bad.below(&s.path));
                    }
                    p = stop;
                }
                Op::Union => {
                    let tag = bits_at(b, end, p, s.prefix as u32);
                    if tag >= s.count as u64 {
                        return Err(Bad::new(&s.path, "BadTag", tag));
                    }
                    p += s.prefix as usize;
                    let part = &self.parts[s.sub as usize + tag as usize];
                    if let Err(bad) = self.print(part, b, end, &mut p, out) {
                        return Err(bad.below(&s.path));
                    }
                }
                _ => {}
            }
        }
        *place = p;
        Ok(())
    }

    /// The text of the value of `b[..size]`, behind which eight bytes stand, or nothing and the cause.
    #[inline(always)]
    pub fn decode(&self, b: &[u8], size: usize, out: &mut Text) -> Result<(), Box<Bad>> {
        let start = out.pos;
        let mut place = 0;
        let done = self.print(self.main(), b, 8 * size, &mut place, out);
        if done.is_err() {
            out.pos = start;
        }
        done
    }
}
