//! The form of a line of a log.

use crate::node::Record;
use crate::tables::is_data_length;

/// The most bytes of a line.
pub const LONGEST_LOG_LINE: usize = 4096;

/// What a line is.
pub enum Form<'a> {
    Bad,
    Skipped,
    Record(&'a [u8]),
}

/// Reads a line by the letter. It is without its newline; a `\r` at its end is dropped.
pub fn form<'a>(line: &'a [u8], rec: &mut Record) -> Form<'a> {
    if line.len() > LONGEST_LOG_LINE {
        return Form::Bad;
    }
    let line = line.strip_suffix(b"\r").unwrap_or(line);
    if line.is_empty() {
        return Form::Skipped;
    }
    form_of(line, rec).unwrap_or(Form::Bad)
}

pub fn form_of<'a>(line: &'a [u8], rec: &mut Record) -> Option<Form<'a>> {
    let digits = |b: &[u8]| b.iter().take_while(|c| c.is_ascii_digit()).count();
    let hexes = |b: &[u8]| b.iter().take_while(|c| c.is_ascii_hexdigit()).count();
    let value = |b: &[u8]| b.iter().fold(0u64, |n, c| n * 10 + (c - b'0') as u64);
    let nibble = |c: u8| (c as char).to_digit(16).unwrap_or(0);

    let b = line.strip_prefix(b"(")?;
    let k = digits(b);
    if !(1..=12).contains(&k) {
        return None;
    }
    let (second_text, b) = b.split_at(k);
    let b = b.strip_prefix(b".")?;
    if digits(b) != 6 {
        return None;
    }
    let (micros, b) = b.split_at(6);
    rec.moment = value(second_text) * 1_000_000 + value(micros);
    let b = b.strip_prefix(b") ")?;
    let k = b.iter().position(|&c| c == b' ')?;
    if !(1..=15).contains(&k) {
        return None;
    }
    let (name, b) = (&b[..k], &b[k + 1..]);
    let k = hexes(b);
    if k != 3 && k != 8 {
        return None;
    }
    rec.ident = b[..k].iter().fold(0, |n, &c| n << 4 | nibble(c));
    let mut skipped = k == 3 || rec.ident > 0x1FFF_FFFF;
    let b = b[k..].strip_prefix(b"#")?;
    let rest = if let Some(b) = b.strip_prefix(b"R") {
        skipped = true;
        &b[digits(b).min(1)..]
    } else {
        let (fd, b) = match b.strip_prefix(b"#") {
            Some(b) if hexes(b) > 0 => (true, &b[1..]),
            Some(_) => return None,
            None => (false, b),
        };
        let k = hexes(b);
        if k % 2 != 0 || !is_data_length(fd, k / 2) {
            return None;
        }
        rec.len = k / 2;
        for (d, x) in rec.data.iter_mut().zip(b[..k].chunks_exact(2)) {
            *d = (nibble(x[0]) << 4 | nibble(x[1])) as u8;
        }
        &b[k..]
    };
    match rest {
        b"" | b" R" | b" T" if skipped => Some(Form::Skipped),
        b"" | b" R" | b" T" => Some(Form::Record(name)),
        _ => None,
    }
}
