//! What the header declares and asserts.
use super::Types;
use std::collections::BTreeMap;

pub const HEADER: &str = include_str!("../../../../../include/cendravoka.h");
pub const PREFIX: &str = "cendravoka_";

/// The header without comments and preprocessor lines, on one line.
fn text() -> String {
    let mut text = String::new();
    for part in HEADER.split("/*") {
        text.push_str(part.split_once("*/").map_or(part, |(_, code)| code));
    }
    let text = text.replace("\\\n", " ");
    let code = text.lines().filter(|line| !line.starts_with('#'));
    code.collect::<Vec<_>>().join(" ")
}

/// A prototype: what it gives, its name and its parameters.
struct Prototype {
    result: String,
    name: String,
    parameters: Vec<String>,
}

/// The prototypes: each ends with `);`.
fn prototypes() -> Vec<Prototype> {
    let prototype = |statement: &str| {
        let statement = statement.rsplit('}').next()?.trim();
        let (head, parameters) = statement.strip_suffix(')')?.split_once('(')?;
        // What stands without a type is an assertion.
        let (result, name) = head.rsplit_once(' ')?;
        let parameters = parameters.split(',').filter(|one| *one != "void");
        Some(Prototype {
            result: rust_type(result),
            name: name.to_owned(),
            parameters: parameters.map(str::to_owned).collect(),
        })
    };
    text().split(';').filter_map(prototype).collect()
}

/// The entries with their parameters and, at the end, what they give.
pub fn entries() -> BTreeMap<String, Types> {
    let types = |own: Prototype| {
        let passed = own.parameters.iter().map(|parameter| c_field(parameter));
        (own.name, passed.chain([own.result]).collect())
    };
    prototypes().into_iter().map(types).collect()
}

/// The slices that each entry is lent, if any, as `Call` names them.
pub fn slices() -> BTreeMap<String, Types> {
    let slices = |own: Prototype| {
        let pointers = own.parameters.iter().filter_map(|parameter| {
            let (kind, name) = parameter.split_once('*')?;
            let change = if kind.contains("const ") { "" } else { "mut " };
            Some(format!("{change}{}", rust_type(&format!("{PREFIX}{name}"))))
        });
        (rust_type(&own.name), pointers.collect::<Types>())
    };
    let all = prototypes().into_iter().map(slices);
    all.filter(|(_, slices)| !slices.is_empty()).collect()
}

/// The structs, as the port names them, with the types of their fields.
pub fn structs() -> BTreeMap<String, Types> {
    let text = text();
    let mut structs = BTreeMap::new();
    for part in text.split("typedef struct {").skip(1) {
        let (fields, rest) = part.split_once('}').expect("the end of the struct");
        let name = rest.split(';').next().unwrap_or_default().trim();
        let fields = fields.split(';').map(str::trim).filter(|field| !field.is_empty());
        structs.insert(rust_type(name), fields.map(c_field).collect());
    }
    structs
}

/// What is asserted of each struct: its length, and its fields with their places.
pub fn measures() -> BTreeMap<String, Types> {
    let text = text();
    let mut measures = BTreeMap::<_, Types>::new();
    for statement in text.split(';') {
        let asserted = statement.trim().strip_prefix("CENDRAVOKA_");
        let Some((_, words)) = asserted.and_then(|words| words.split_once('(')) else {
            continue;
        };
        let (name, rest) = words.trim_end_matches(')').split_once(", ").expect("a struct");
        measures.entry(rust_type(name)).or_default().push(rest.replace(", ", " at "));
    }
    measures
}

/// `uint32_t kind` as Rust writes it, `kind: u32`, and `uint32_t mins[32]` as
/// `mins: [u32; 32]`.
fn c_field(declaration: &str) -> String {
    let (_, name) = declaration.rsplit_once([' ', '*']).expect("a name after the type");
    let kind = c_type(declaration);
    match name.trim_end_matches(']').split_once('[') {
        Some((name, length)) => format!("{name}: [{kind}; {length}]"),
        None => format!("{name}: {kind}"),
    }
}

/// The type of a parameter or field, as Rust names it.
fn c_type(declaration: &str) -> String {
    let declaration = declaration.trim();
    let (kind, _) = declaration.rsplit_once([' ', '*']).expect("a name after the type");
    let pointer = declaration.contains('*');
    match (pointer, kind.trim_end_matches([' ', '*']).strip_prefix("const ")) {
        (true, Some(kind)) => format!("*const {}", rust_type(kind)),
        (true, None) => format!("*mut {}", rust_type(kind.trim_end_matches([' ', '*']))),
        _ => rust_type(kind),
    }
}

/// `cendravoka_best_answer` is `BestAnswer` in the port.
fn rust_type(kind: &str) -> String {
    let number = match kind.trim() {
        "uint8_t" => "u8",
        "uint16_t" => "u16",
        "uint32_t" => "u32",
        "uint64_t" => "u64",
        "int32_t" => "i32",
        "int64_t" => "i64",
        "size_t" => "usize",
        "float" => "f32",
        other => other,
    };
    let Some(name) = number.strip_prefix(PREFIX) else {
        return number.to_owned();
    };
    let capital = |word: &str| word[..1].to_uppercase() + &word[1..];
    name.split('_').map(capital).collect()
}
