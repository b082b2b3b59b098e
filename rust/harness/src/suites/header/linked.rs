//! What the port declares.
use super::Types;
use std::collections::BTreeMap;

/// The entries with their parameters and, at the end, what they give.
pub fn entries() -> BTreeMap<String, Types> {
    let (_, block) = port::DECLARATIONS.split_once("extern \"C\" {").expect("a block of entries");
    let mut entries = BTreeMap::new();
    for statement in block.split(';') {
        let Some((_, declaration)) = statement.split_once("fn ") else {
            continue;
        };
        let (name, rest) = declaration.split_once('(').expect("parameters");
        let without_result = (rest.trim_end_matches(')'), "void");
        let (parameters, result) = rest.rsplit_once(") -> ").unwrap_or(without_result);
        let parameters = parameters.split(',').map(str::trim).filter(|one| !one.is_empty());
        let mut types = parameters.map(str::to_owned).collect::<Vec<_>>();
        types.push(result.trim().to_owned());
        entries.insert(name.to_owned(), types);
    }
    entries
}

/// The structs with the types of their fields.
pub fn structs() -> BTreeMap<String, Types> {
    let mut structs = BTreeMap::new();
    for part in port::DECLARATIONS.split("pub struct ").skip(1) {
        let (name, rest) = part.split_once(" {").expect("fields");
        let (fields, _) = rest.split_once('}').expect("the end of the struct");
        let fields = fields.split(',').filter_map(|field| field.trim().strip_prefix("pub "));
        structs.insert(name.to_owned(), fields.map(str::to_owned).collect());
    }
    structs
}

/// The length of a struct, and its fields with their places.
pub fn measure(name: &str) -> Types {
    let own = port::MEASURES.iter().find(|own| own.name == name);
    let fields = own.iter().flat_map(|own| own.fields);
    let places = fields.map(|(field, place)| format!("{field} at {place}"));
    own.iter().map(|own| own.size.to_string()).chain(places).collect()
}
