//! What a programmer would write by hand for speed, to measure `cyphal` beside it: `run`, `encode` and `decode` in std
//! Rust, on one thread, without `unsafe`. The words are `run FOLDER PLAN`, `encode FOLDER TYPE` and
//! `decode FOLDER TYPE`; FOLDER has the types as compact texts (by_hand/types.rs), each in a file `TYPE.txt`.
//!
//! Outputs, error lines and statuses are those of `cyphal`, for the plans that by_hand/plan.rs names.
//!
//! The input is read in pieces into one buffer, which also holds the unfinished line in front of the piece. Each line
//! first goes to `quick`, which takes the one common form of a record by arithmetic on words and gives up on anything
//! else; `form` then reads the line by the letter. What is due is written before the next piece is read. Nothing is
//! allocated for a record; a session takes its buffer when it opens. A type is made into flat steps once.

#[path = "by_hand/decode.rs"]
mod decode;
#[path = "by_hand/encode.rs"]
mod encode;
#[path = "by_hand/line.rs"]
mod line;
#[path = "by_hand/lines.rs"]
mod lines;
#[path = "by_hand/node.rs"]
mod node;
#[path = "by_hand/plan.rs"]
mod plan;
#[path = "by_hand/program.rs"]
mod program;
#[path = "by_hand/report.rs"]
mod report;
#[path = "by_hand/run.rs"]
mod run;
#[path = "by_hand/tables.rs"]
mod tables;
#[path = "by_hand/text.rs"]
mod text;
#[path = "by_hand/types.rs"]
mod types;

use lines::{decode_lines, encode_lines};
use program::Program;
use std::ffi::OsStr;
use std::io::Write;
use types::load_type;

/// The most bytes of an input.
const MOST_INPUT: u64 = 1 << 28;
/// No bus, no transfer-ID, no port, no node.
const NONE: u8 = 0xFF;

/// Why the program ends before its work is done.
struct Ended {
    status: i32,
    text: String,
}

fn ended<T>(status: i32, text: impl Into<String>) -> Result<T, Ended> {
    Err(Ended { status, text: text.into() })
}

/// Answers the lines of values of a type.
fn values(folder: &OsStr, name: &OsStr, encodes: bool) -> Result<(), Ended> {
    match load_type(&folder.to_string_lossy(), &name.to_string_lossy()) {
        None => ended(12, format!("not found: {}", name.to_string_lossy())),
        Some((of, _)) if encodes => encode_lines(&Program::new(&of, true)),
        Some((of, _)) => decode_lines(&Program::new(&of, false)),
    }
}

fn main() {
    let words: Vec<_> = std::env::args_os().skip(1).collect();
    let done = match &words[..] {
        [command, folder, plan] if command == "run" => run::run(&folder.to_string_lossy(), plan),
        [command, folder, name] if command == "encode" || command == "decode" => {
            values(folder, name, command == "encode")
        }
        _ => ended(1, "usage"),
    };
    if let Err(why) = done {
        let _ = writeln!(std::io::stderr(), "cyphal: {}", why.text);
        std::process::exit(why.status);
    }
}
