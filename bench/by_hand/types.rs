//! Types as compact texts: `bool`, `uint N s` or `t`, `int N`, `float N`, `void N`, `fixed N TYPE`, `var N TYPE`, and
//! `struct` or `union`, `sealed` or `delimited`, the extent in bits, how many fields, and each field's name and type.

/// A type.
pub enum Type {
    Bool,
    /// Its bits, and whether it is saturated.
    Uint(u32, bool),
    Int(u32),
    Float(u32),
    Void(u32),
    Fixed(usize, Box<Type>),
    Var(usize, Box<Type>),
    Struct {
        sealed: bool,
        fields: Vec<(String, Type)>,
    },
    Union {
        sealed: bool,
        fields: Vec<(String, Type)>,
    },
}

/// Reads a type from its words.
pub fn read_type<'a>(words: &mut impl Iterator<Item = &'a str>) -> Option<Type> {
    let word = words.next()?;
    let mut num = || words.next()?.parse::<u32>().ok();
    Some(match word {
        "bool" => Type::Bool,
        "uint" => {
            let n = num()?;
            Type::Uint(n, words.next()? == "s")
        }
        "int" => Type::Int(num()?),
        "float" => Type::Float(num()?),
        "void" => Type::Void(num()?),
        "fixed" => {
            let n = num()? as usize;
            Type::Fixed(n, Box::new(read_type(words)?))
        }
        "var" => {
            let n = num()? as usize;
            Type::Var(n, Box::new(read_type(words)?))
        }
        "struct" | "union" => {
            let sealed = words.next()? == "sealed";
            let _extent = words.next()?;
            let count: usize = words.next()?.parse().ok()?;
            let mut fields = vec![];
            for _ in 0..count {
                let name = words.next()?.to_string();
                fields.push((name, read_type(words)?));
            }
            if word == "struct" {
                Type::Struct { sealed, fields }
            } else {
                Type::Union { sealed, fields }
            }
        }
        _ => return None,
    })
}

/// The type of a name, and its extent in bytes.
pub fn load_type(folder: &str, name: &str) -> Option<(Type, usize)> {
    let text = std::fs::read_to_string(format!("{folder}/{name}.txt")).ok()?;
    let extent = text.split(' ').nth(2)?.parse::<usize>().ok()? / 8;
    Some((read_type(&mut text.split_ascii_whitespace())?, extent))
}

/// The bits of a length or a tag up to a number.
pub fn holding(n: usize) -> u32 {
    if n < 1 << 8 {
        8
    } else if n < 1 << 16 {
        16
    } else {
        32
    }
}

/// Whether a type begins at a whole byte.
pub fn is_aligned(t: &Type) -> bool {
    match t {
        Type::Fixed(_, t) | Type::Var(_, t) => is_aligned(t),
        Type::Struct { .. } | Type::Union { .. } => true,
        _ => false,
    }
}
