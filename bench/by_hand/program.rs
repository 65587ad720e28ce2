//! A type as flat steps: for each a text in front, and what is read and printed, or the other way round.

use crate::types::{holding, is_aligned, Type};

/// What a step does behind its text.
#[derive(Clone, Copy, PartialEq)]
pub enum Op {
    Bool,
    Uint,
    Int,
    Float,
    Skip,      // width bits of padding
    Align,     // to a multiple of 8
    Bytes,     // an array of 8-bit unsigned
    Row,       // an array of another primitive, `item`
    Parts,     // an array of composites, the program `sub`
    Delimited, // the program `sub` in a window
    Union,     // a tag, and the program `sub` + tag
    End,       // its text alone
}

/// A step: a text in front, and what is read and printed, or the other way round.
#[derive(Clone)]
pub struct Step {
    pub op: Op,
    pub item: Op,
    pub saturated: bool,
    pub fixed: bool,
    pub width: u8,
    pub prefix: u8, // bits of the length field or the tag
    pub lead_len: u32,
    pub count: u32, // of an array its length or capacity, of a union the number of its variants
    pub sub: u32,
    pub lead: [u8; 32],
    pub long: Box<[u8]>, // the lead where it is longer than 32
    pub path: String,
}

/// The steps of a type: those of its parts, and its own last.
pub struct Program {
    pub parts: Vec<Vec<Step>>,
}

/// Makes the steps of a type.
pub struct Maker {
    pub encode: bool,
    pub parts: Vec<Vec<Step>>,
}

/// What is being put together: the steps, the text that is due, and the path.
pub struct Draft {
    pub steps: Vec<Step>,
    pub text: Vec<u8>,
}

impl Draft {
    pub fn step(&mut self, op: Op, path: &str) -> &mut Step {
        let text = std::mem::take(&mut self.text);
        let mut lead = [0; 32];
        if text.len() <= 32 {
            lead[..text.len()].copy_from_slice(&text);
        }
        self.steps.push(Step {
            op,
            item: Op::End,
            saturated: false,
            fixed: false,
            width: 0,
            prefix: 0,
            lead_len: text.len() as u32,
            count: 0,
            sub: 0,
            lead,
            long: text.into_boxed_slice(),
            path: path.into(),
        });
        self.steps.last_mut().unwrap()
    }

    pub fn silent(&mut self, op: Op, width: u32) {
        let text = std::mem::take(&mut self.text);
        self.step(op, "").width = width as u8;
        self.text = text;
    }
}

impl Program {
    pub fn new(t: &Type, encode: bool) -> Program {
        let mut maker = Maker { encode, parts: vec![] };
        let mut draft = Draft { steps: vec![], text: vec![] };
        maker.own(t, &mut draft, "");
        if encode {
            draft.text.push(b'\n');
        }
        draft.step(Op::End, "");
        maker.parts.push(draft.steps);
        Program { parts: maker.parts }
    }

    pub fn main(&self) -> &[Step] {
        self.parts.last().unwrap()
    }
}

pub fn joined(path: &str, name: &str) -> String {
    if path.is_empty() {
        name.into()
    } else {
        format!("{path}.{name}")
    }
}

impl Maker {
    pub fn sub(&mut self, t: &Type) -> u32 {
        let mut draft = Draft { steps: vec![], text: vec![] };
        self.own(t, &mut draft, "");
        draft.step(Op::End, "");
        self.parts.push(draft.steps);
        self.parts.len() as u32 - 1
    }

    pub fn part(&mut self, t: &Type, d: &mut Draft, path: &str) {
        match t {
            Type::Struct { sealed: false, .. } | Type::Union { sealed: false, .. } => {
                let sub = self.sub(t);
                d.step(Op::Delimited, path).sub = sub;
            }
            _ => self.own(t, d, path),
        }
    }

    pub fn own(&mut self, t: &Type, d: &mut Draft, path: &str) {
        match t {
            Type::Bool => d.step(Op::Bool, path).width = 1,
            Type::Uint(n, s) => {
                let step = d.step(Op::Uint, path);
                step.width = *n as u8;
                step.saturated = *s;
            }
            Type::Int(n) => d.step(Op::Int, path).width = *n as u8,
            Type::Float(n) => d.step(Op::Float, path).width = *n as u8,
            Type::Void(n) => d.silent(Op::Skip, *n),
            Type::Fixed(n, item) => self.array(item, *n, true, d, path),
            Type::Var(n, item) => self.array(item, *n, false, d, path),
            Type::Struct { fields, .. } => {
                d.text.push(b'{');
                let mut first = true;
                for (name, t) in fields {
                    if let Type::Void(n) = t {
                        d.silent(Op::Skip, *n);
                        continue;
                    }
                    if !first {
                        d.text.extend(b", ");
                    }
                    first = false;
                    d.text.extend(name.bytes());
                    d.text.extend(b": ");
                    if is_aligned(t) {
                        d.silent(Op::Align, 0);
                    }
                    self.part(t, d, &joined(path, name));
                }
                d.silent(Op::Align, 0);
                d.text.push(b'}');
            }
            Type::Union { fields, .. } => {
                // The variants' programs stand behind one another, each with its name in front.
                let mut subs = vec![];
                for (name, t) in fields {
                    let mut v = Draft { steps: vec![], text: vec![] };
                    v.text.extend(name.bytes());
                    v.text.extend(b": ");
                    self.part(t, &mut v, name);
                    v.step(Op::End, "");
                    subs.push(v.steps);
                }
                d.text.push(b'{');
                let step = d.step(Op::Union, path);
                step.sub = self.parts.len() as u32;
                step.count = fields.len() as u32;
                step.prefix = holding(fields.len() - 1) as u8;
                self.parts.extend(subs);
                d.silent(Op::Align, 0);
                d.text.push(b'}');
            }
        }
    }

    pub fn array(&mut self, item: &Type, n: usize, fixed: bool, d: &mut Draft, path: &str) {
        let bytes = matches!(item, Type::Uint(8, _));
        let sub = if is_aligned(item) {
            let mut v = Draft { steps: vec![], text: vec![] };
            self.part(item, &mut v, "");
            v.step(Op::End, "");
            self.parts.push(v.steps);
            self.parts.len() as u32 - 1
        } else {
            0
        };
        if !bytes {
            d.text.push(b'[');
        } else if !self.encode {
            d.text.push(b'#');
        }
        let (op, kind, width, saturated) = match item {
            Type::Bool => (Op::Row, Op::Bool, 1, false),
            Type::Uint(8, s) => (Op::Bytes, Op::Uint, 8, *s),
            Type::Uint(n, s) => (Op::Row, Op::Uint, *n, *s),
            Type::Int(n) => (Op::Row, Op::Int, *n, false),
            Type::Float(n) => (Op::Row, Op::Float, *n, false),
            _ => (Op::Parts, Op::End, 0, false),
        };
        let step = d.step(op, path);
        step.item = kind;
        step.width = width as u8;
        step.saturated = saturated;
        step.fixed = fixed;
        step.count = n as u32;
        step.prefix = holding(n) as u8;
        step.sub = sub;
        if !bytes {
            d.text.push(b']');
        }
    }
}
