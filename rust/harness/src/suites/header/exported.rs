//! What the Rattle sources of the entries export.
use super::Types;
use std::collections::BTreeMap;
use std::fs;

/// The folder of the sources, whatever folder the harness runs in.
const SOURCES: &str = concat!(env!("CARGO_MANIFEST_DIR"), "/../../crates/seating/src");

/// The entries with their parameters as they cross.
pub fn entries() -> BTreeMap<String, Types> {
    let mut entries = BTreeMap::new();
    for file in fs::read_dir(SOURCES).expect("the folder of the entries") {
        let path = file.expect("a file of the entries").path();
        let text = fs::read_to_string(path).expect("the source of entries");
        for part in text.split("#[unsafe(no_mangle)]").skip(1) {
            let declared = part.trim_start().strip_prefix("pub extern \"C\" fn ");
            let (name, rest) = declared.and_then(|own| own.split_once('(')).expect("an entry");
            let (parameters, _) = rest.split_once(')').expect("the end of the parameters");
            let parameters = parameters.split(',').map(str::trim).filter(|one| !one.is_empty());
            entries.insert(name.to_owned(), parameters.flat_map(crossing).collect());
        }
    }
    entries
}

/// A slice crosses as a pointer and a count of elements: `from: &mut [u16]` as
/// `from: *mut u16` and `from_length: usize`. The sources say `res` for `result`,
/// which is a word of their clauses.
fn crossing(parameter: &str) -> Types {
    let (name, kind) = parameter.split_once(": ").expect("a name before the type");
    let name = if name == "res" { "result" } else { name };
    let Some((borrow, element)) = kind.trim_end_matches(']').split_once('[') else {
        return vec![format!("{name}: {kind}")];
    };
    let pointer = if borrow.contains("mut") { "*mut" } else { "*const" };
    vec![format!("{name}: {pointer} {element}"), format!("{name}_length: usize")]
}
