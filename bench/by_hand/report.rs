//! The lines of a report, gathered before they are written.

use crate::node::Label;
use crate::program::Program;
use crate::tables::{digit_values, short_decimal, HEX_TEXT, ONES, PRIORITY_TEXT};
use crate::text::Text;
use crate::{ended, Ended};
use std::fs::File;
use std::io::{ErrorKind, Write};

/// The room of what is gathered: more than the longest line on top of what is written at once.
pub const REPORT_ROOM: usize = FLUSH_AT + 2 * 65536 + 512;
/// So much is written at once.
pub const FLUSH_AT: usize = 1 << 16;

/// The report that is written.
pub struct Report {
    pub file: Option<File>,
    pub t: Text,
    /// The first moment of a second, and the text that the lines of that second begin with.
    pub from: u64,
    pub second_text: [u8; 16],
    pub seconds_len: usize,
}

impl Report {
    pub fn flush(&mut self) -> Result<(), Ended> {
        let mut rest = &self.t.buf[..self.t.pos];
        while !rest.is_empty() {
            match self.file.as_mut().map(|f| f.write(rest)) {
                Some(Ok(n)) if n > 0 => rest = &rest[n..],
                Some(Err(e)) if e.kind() == ErrorKind::Interrupted => {}
                _ => {
                    self.t.pos = 0;
                    return ended(9, "write fault");
                }
            }
        }
        self.t.pos = 0;
        Ok(())
    }

    pub fn put(&mut self, b: &[u8]) {
        self.t.slice(b);
    }

    /// Sets `rx `, the seconds and the point for the moments from `moment` on.
    #[cold]
    #[inline(never)]
    pub fn second(&mut self, moment: u64) {
        let t = format!("rx {}.", moment / 1_000_000);
        self.from = moment - moment % 1_000_000;
        self.second_text[..t.len()].copy_from_slice(t.as_bytes());
        self.seconds_len = t.len();
    }

    /// An `rx` line. The payload is the first `size` bytes.
    #[inline(always)]
    #[allow(clippy::too_many_arguments)]
    pub fn rx(
        &mut self,
        label: &Label,
        ident: u32,
        tid: u8,
        moment: u64,
        first: u64,
        last: u64,
        payload: &[u8],
        size: usize,
        program: Option<&Program>,
    ) {
        if moment.wrapping_sub(self.from) >= 1_000_000 {
            self.second(moment);
        }
        self.t.room(128 + 2 * size);
        let b = &mut self.t.buf[self.t.pos..self.t.pos + 128 + 2 * size];
        let mut k = 0;
        // A piece of fixed size, of which n bytes count; the rest is overwritten.
        macro_rules! put {
            ($piece:expr, $n:expr) => {{
                let piece = $piece;
                b[k..k + piece.len()].copy_from_slice(&piece);
                k += $n;
            }};
        }
        put!(self.second_text, self.seconds_len);
        put!(((digit_values(moment - self.from) | 0x30 * ONES) >> 16).to_le_bytes(), 6);
        put!(label.text, label.len);
        let t = PRIORITY_TEXT[(ident >> 26 << 5) as usize | tid as usize];
        put!(t, t[7] as usize);
        if last < 10_000_000 {
            let (w, n) = short_decimal(last);
            let (v, m) = if first == last { (w, n) } else { short_decimal(first) };
            put!(v.to_le_bytes(), m);
            put!(w.to_le_bytes(), n);
        } else {
            // At most nine digits, since the input has 2^28 bytes.
            let mut rest = &mut b[k..];
            let _ = write!(rest, "{first} {last} ");
            let left = rest.len();
            k = b.len() - left;
        }
        if size == 0 {
            put!(*b"-", 1);
        }
        for (d, &x) in b[k..k + 2 * size].chunks_exact_mut(2).zip(&payload[..size]) {
            d.copy_from_slice(&HEX_TEXT[x as usize]);
        }
        k += 2 * size;
        if let Some(program) = program {
            put!(*b" ", 1);
            self.t.pos += k;
            match program.decode(payload, size, &mut self.t) {
                Ok(()) => self.t.put([b'\n'], 1),
                Err(bad) => self.t.slice(format!("!{}\n", bad.text()).as_bytes()),
            }
            return;
        }
        put!(*b" raw\n\0\0\0", 5);
        self.t.pos += k;
    }

    pub fn nosession(&mut self, label: &Label, moment: u64, n: u64) {
        let (s, u) = (moment / 1_000_000, moment % 1_000_000);
        let label = String::from_utf8_lossy(&label.text[..label.len]);
        self.put(format!("nosession {s}.{u:06}{label}{n}\n").as_bytes());
    }
}
