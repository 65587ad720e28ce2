//! The lines of a plan that this program knows: `plan`, `node`, `bus`, `timeout`, `silent` and `sub`. Every other line
//! is answered `Line`, and so is a plan that isn't silent.

use crate::program::Program;
use crate::types::load_type;
use crate::NONE;

/// The most bytes of a plan; 32 more where it is one of version 2.
const LONGEST_PLAN: usize = 1 << 20;

/// `sub PORT SOURCES raw N`, or with a type.
pub struct Sub {
    /// The steps of the type.
    pub program: Option<Program>,
    pub port: u16,
    pub sources: u8,
    pub extent: u32,
}

/// A plan.
pub struct Plan {
    pub node: u8,
    pub buses: Vec<Vec<u8>>,
    pub timeout: u64,
    pub subs: Vec<Sub>,
}

/// None where the word is no number; numbers that don't fit stay at the greatest.
pub fn number(w: &[u8]) -> Option<u64> {
    if w.is_empty() || (w.len() > 1 && w[0] == b'0') || !w.iter().all(u8::is_ascii_digit) {
        return None;
    }
    Some(w.iter().fold(0u64, |n, d| n.saturating_mul(10).saturating_add((d - b'0') as u64)))
}

/// Reads a plan, or says which line is refused and why.
pub fn read_plan(folder: &str, text: &[u8]) -> Result<Plan, (usize, &'static str)> {
    let mut plan = Plan { node: NONE, buses: vec![], timeout: 0, subs: vec![] };
    let (mut version, mut node, mut timeout, mut silent) = (0, None, None, false);
    let (mut place, mut n) = (0, 0);
    let mut lines = text.split(|&c| c == b'\n');
    let two = lines.find(|l| !l.is_empty() && l[0] != b'#') == Some(b"plan 2");
    let limit = if two { LONGEST_PLAN + 32 } else { LONGEST_PLAN };
    while place < text.len() {
        n += 1;
        let end = text[place..].iter().position(|&c| c == b'\n').map_or(text.len(), |k| place + k);
        let line = &text[place..end];
        let next = (end + 1).min(text.len());
        if next > limit {
            return Err((n, "Line"));
        }
        place = next;
        if line.is_empty() || line[0] == b'#' {
            continue;
        }
        let words: Vec<&[u8]> = line.split(|&c| c == b' ').collect();
        if words.iter().any(|w| w.is_empty()) {
            return Err((n, "Line"));
        }
        let num = |k: usize| number(words[k]).ok_or((n, "Line"));
        match (words[0], words.len()) {
            (b"plan", 2) => {
                let v = match words[1] {
                    b"1" => 1,
                    b"2" => 2,
                    _ => return Err((n, "Line")),
                };
                if version == 0 {
                    version = v;
                } else {
                    return Err((n, if version == v { "Repeated" } else { "Line" }));
                }
            }
            _ if version == 0 => return Err((n, "Line")),
            (b"node", 2) => {
                let v = num(1)?;
                if v > 127 {
                    return Err((n, "Range"));
                }
                if node.replace(v).is_some() {
                    return Err((n, "Repeated"));
                }
                plan.node = v as u8;
            }
            (b"bus", k) if k == if version == 1 { 2 } else { 4 } => {
                let name = words[1];
                let (mtu, rate) = if k == 4 { (num(2)?, num(3)?) } else { (8, 1) };
                if name.len() > 15
                    || !name.iter().all(|&c| c.is_ascii_alphanumeric() || c == b'_')
                    || plan.buses.len() == 3
                    || (mtu != 8 && mtu != 64)
                    || !(1..=4096).contains(&rate)
                {
                    return Err((n, "Range"));
                }
                if plan.buses.iter().any(|b| b == name) {
                    return Err((n, "Repeated"));
                }
                plan.buses.push(name.to_vec());
            }
            (b"timeout", 2) => {
                let v = num(1)?;
                if !(1..=60_000_000).contains(&v) {
                    return Err((n, "Range"));
                }
                if timeout.replace(v).is_some() {
                    return Err((n, "Repeated"));
                }
            }
            (b"silent", 1) => {
                if std::mem::replace(&mut silent, true) {
                    return Err((n, "Repeated"));
                }
            }
            (b"sub", k @ (4 | 5)) => {
                let (port, sources) = (num(1)?, num(2)?);
                let raw = k == 5;
                if raw && words[3] != b"raw" {
                    return Err((n, "Line"));
                }
                let mut extent = if raw { num(4)? } else { 0 };
                if port > 8191 || !(1..=128).contains(&sources) || extent > 65536 || plan.subs.len() == 64 {
                    return Err((n, "Range"));
                }
                if plan.subs.iter().any(|s| s.port as u64 == port) {
                    return Err((n, "Repeated"));
                }
                let mut program = None;
                if !raw {
                    let Some((t, e)) = load_type(folder, &String::from_utf8_lossy(words[3])) else {
                        return Err((n, "UnknownType"));
                    };
                    extent = e as u64;
                    program = Some(Program::new(&t, false));
                }
                plan.subs.push(Sub { program, port: port as u16, sources: sources as u8, extent: extent as u32 });
            }
            _ => return Err((n, "Line")),
        }
    }
    if version == 0 || node.is_none() || plan.buses.is_empty() || !silent {
        return Err((n + 1, "Line"));
    }
    plan.timeout = timeout.unwrap_or(2_000_000);
    Ok(plan)
}
