//! The run of a plan over a log.

use crate::line::LONGEST_LOG_LINE;
use crate::node::{Node, Record};
use crate::plan::read_plan;
use crate::report::{Report, REPORT_ROOM};
use crate::text::Text;
use crate::{ended, Ended, MOST_INPUT};
use std::fs::File;
use std::io::{ErrorKind, Read};
use std::os::fd::AsFd;

/// So much is read at once.
const PIECE: usize = 8192;
/// Zeros behind the last byte that was read, more than the common form of a line looks ahead.
const BEHIND_PIECE: usize = 192;

/// Reads a piece; a read that a signal interrupts is made again.
pub fn read(file: &mut File, buf: &mut [u8]) -> Result<usize, Ended> {
    loop {
        match file.read(buf) {
            Ok(n) => return Ok(n),
            Err(e) if e.kind() == ErrorKind::Interrupted => {}
            Err(_) => return ended(8, "read fault"),
        }
    }
}

/// Hears a log, and writes what is due before each piece is read.
pub fn run_log(node: &mut Node, input: &mut File) -> Result<(), Ended> {
    let mut buf = vec![0u8; LONGEST_LOG_LINE + PIECE + BEHIND_PIECE].into_boxed_slice();
    let (mut end, mut total, mut n) = (0, 0u64, 0u64);
    let mut rec = Record { moment: 0, bus: 0, ident: 0, len: 0, data: [0; 72] };
    loop {
        // buf[..end] is an unfinished line of at most LONGEST_LOG_LINE bytes.
        let room = (MOST_INPUT - total).min(PIECE as u64) as usize;
        if room == 0 {
            if read(input, &mut [0])? > 0 {
                return ended(11, "input too long");
            }
            break;
        }
        let got = read(input, &mut buf[end..end + room])?;
        if got == 0 {
            break;
        }
        total += got as u64;
        end += got;
        buf[end..end + BEHIND_PIECE].fill(0);
        let mut p = 0;
        while p < end {
            let next = node.quick(&buf, p, &mut rec);
            if next != 0 {
                n += 1;
                node.record(&rec, n)?;
                p = next;
                continue;
            }
            match buf[p..end].iter().position(|&c| c == b'\n') {
                Some(k) => {
                    n += 1;
                    node.line(&buf[p..p + k], n, &mut rec)?;
                    p += k + 1;
                }
                None if end - p > LONGEST_LOG_LINE => return ended(4, format!("log line {}: BadLine", n + 1)),
                None => break,
            }
        }
        buf.copy_within(p..end, 0);
        end -= p;
        node.out.flush()?;
    }
    if end > 0 {
        node.line(&buf[..end], n + 1, &mut rec)?;
    }
    Ok(())
}

/// Runs a plan over standard input.
pub fn run(folder: &str, plan_path: &std::ffi::OsStr) -> Result<(), Ended> {
    let text = match std::fs::read(plan_path) {
        Ok(t) => t,
        Err(e) if matches!(e.kind(), ErrorKind::NotFound | ErrorKind::IsADirectory | ErrorKind::NotADirectory) => {
            return ended(12, format!("not found: {}", plan_path.to_string_lossy()));
        }
        Err(_) => return ended(8, "read fault"),
    };
    let plan = match read_plan(folder, &text) {
        Ok(p) => p,
        Err((n, why)) => return ended(3, format!("plan line {n}: {why}")),
    };
    let bound: u64 = plan.subs.iter().map(|s| s.sources as u64 * s.extent as u64).sum();
    // Standard input and output without the locks and buffers of `std::io`.
    let Ok(input) = std::io::stdin().as_fd().try_clone_to_owned() else {
        return ended(8, "read fault");
    };
    let out = Report {
        file: std::io::stdout().as_fd().try_clone_to_owned().ok().map(File::from),
        t: Text { buf: vec![0; REPORT_ROOM], pos: 0 },
        from: u64::MAX / 2,
        second_text: [0; 16],
        seconds_len: 0,
    };
    let mut node = Node::new(plan, out);
    let done = run_log(&mut node, &mut File::from(input));
    if done.is_ok() {
        let t = format!(
            "end records {} delivered {} badcrc {} nosession {} sent 0 held {} bound {}\n",
            node.records, node.delivered, node.badcrc, node.nosession, node.held, bound
        );
        node.out.put(t.as_bytes());
    }
    if !matches!(&done, Err(why) if why.status == 9) {
        node.out.flush()?;
    }
    done
}
