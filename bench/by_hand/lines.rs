//! Lines of values, answered one by one.

use crate::encode::Bits;
use crate::program::Program;
use crate::report::FLUSH_AT;
use crate::run::read;
use crate::tables::{four_pairs, NOT_HEX};
use crate::text::{put_hex, Text};
use crate::{ended, Ended, MOST_INPUT};
use std::fs::File;
use std::io::{ErrorKind, Write};
use std::os::fd::AsFd;

/// The most bytes of a line.
const LONGEST_VALUE_LINE: usize = 1 << 20;
/// So much is read at once.
const VALUE_PIECE: usize = 1 << 16;
/// Zeros behind what was read.
const BEHIND_LINES: usize = 256;

pub fn write_all(out: &mut Option<File>, mut rest: &[u8]) -> Result<(), Ended> {
    while !rest.is_empty() {
        match out.as_mut().map(|f| f.write(rest)) {
            Some(Ok(n)) if n > 0 => rest = &rest[n..],
            Some(Err(e)) if e.kind() == ErrorKind::Interrupted => {}
            _ => return ended(9, "write fault"),
        }
    }
    Ok(())
}

/// Answers each line of the input: `one` answers the line from a place on, up to a newline that is there, and gives
/// the place behind the newline.
pub fn answer_lines(one: &mut dyn FnMut(&[u8], usize, &mut Text) -> Result<usize, (i32, String)>) -> Result<(), Ended> {
    let Ok(input) = std::io::stdin().as_fd().try_clone_to_owned() else {
        return ended(8, "read fault");
    };
    let mut input = File::from(input);
    let mut file = std::io::stdout().as_fd().try_clone_to_owned().ok().map(File::from);
    let mut out = Text { buf: vec![0; 4 * FLUSH_AT], pos: 0 };
    let mut buf = vec![0u8; 2 * VALUE_PIECE + BEHIND_LINES];
    let (mut start, mut end, mut total, mut n) = (0, 0, 0u64, 0u64);
    let refused;
    'reads: loop {
        if start > 0 {
            buf.copy_within(start..end, 0);
            end -= start;
            start = 0;
        }
        if buf.len() < end + VALUE_PIECE + BEHIND_LINES {
            let size = 2 * buf.len();
            buf.resize(size, 0);
        }
        let room = (MOST_INPUT - total).min(VALUE_PIECE as u64) as usize;
        let got = if room == 0 {
            if read(&mut input, &mut [0])? > 0 {
                refused = Some((11, "input too long".into()));
                break;
            }
            0
        } else {
            read(&mut input, &mut buf[end..end + room])?
        };
        total += got as u64;
        let mut last = buf[end..end + got].iter().rposition(|&c| c == b'\n').map(|k| end + k + 1);
        end += got;
        if got == 0 && end > 0 {
            buf[end] = b'\n';
            end += 1;
            last = Some(end);
        }
        buf[end..end + BEHIND_LINES].fill(0);
        if let Some(last) = last {
            while start < last {
                n += 1;
                match one(&buf, start, &mut out) {
                    Ok(next) if next - start <= LONGEST_VALUE_LINE + 1 => start = next,
                    Ok(_) => {
                        refused = Some((5, format!("line {n}: no value")));
                        break 'reads;
                    }
                    Err((code, why)) => {
                        refused = Some((code, format!("line {n}: {why}")));
                        break 'reads;
                    }
                }
                if out.pos >= FLUSH_AT {
                    write_all(&mut file, &out.buf[..out.pos])?;
                    out.pos = 0;
                }
            }
        }
        if end - start > LONGEST_VALUE_LINE {
            refused = Some((5, format!("line {}: no value", n + 1)));
            break;
        }
        write_all(&mut file, &out.buf[..out.pos])?;
        out.pos = 0;
        if got == 0 {
            return Ok(());
        }
    }
    write_all(&mut file, &out.buf[..out.pos])?;
    let (code, text) = refused.unwrap();
    ended(code, text)
}

pub fn decode_lines(program: &Program) -> Result<(), Ended> {
    let mut bytes = vec![0u8; LONGEST_VALUE_LINE / 2 + 64];
    answer_lines(&mut |t, start, out| {
        // Hex up to what is none.
        let mut n = 0;
        let line = &t[start..];
        for (d, s) in bytes.chunks_exact_mut(4).zip(line.chunks_exact(8)) {
            let [w, x, y, z] = four_pairs(s.first_chunk().unwrap());
            [d[0], d[1], d[2], d[3]] = [w as u8, x as u8, y as u8, z as u8];
            if w | x | y | z >= NOT_HEX {
                n += if w >= NOT_HEX {
                    0
                } else if x >= NOT_HEX {
                    1
                } else if y >= NOT_HEX {
                    2
                } else {
                    3
                };
                break;
            }
            n += 4;
        }
        if line[2 * n] != b'\n' {
            return Err((5, "no value".into()));
        }
        match program.decode(&bytes, n, out) {
            Ok(()) => {
                out.put([b'\n'], 1);
                Ok(start + 2 * n + 1)
            }
            Err(bad) => Err((6, bad.text())),
        }
    })
}

pub fn encode_lines(program: &Program) -> Result<(), Ended> {
    let mut to = Bits { buf: vec![0; 1024], place: 0 };
    answer_lines(&mut |t, start, out| {
        to.place = 0;
        let Some(next) = program.scan(program.main(), t, start, &mut to) else {
            return Err((5, "no value".into()));
        };
        let n = to.place / 8;
        out.room(2 * n);
        let d = &mut out.buf[out.pos..out.pos + 2 * n];
        put_hex(d, &to.buf[..n]);
        out.pos += 2 * n;
        out.put([b'\n'], 1);
        Ok(next)
    })
}
