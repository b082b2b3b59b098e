//! The header, the archive, the sources of the entries and the declarations of
//! the port name the same entries; all but the archive the same parameters, in
//! order; the header and the port the same results, fields and places.
mod declared;
mod exported;
mod linked;

use crate::call::{Name, TAKEN};
use crate::recording::Entry;
use crate::run::{Outcome, Run, wanted};
use declared::{HEADER, PREFIX};
use std::collections::{BTreeMap, BTreeSet};
use std::process::Command;

/// What is passed to an entry, in order, each as a name and a type, and at the end
/// the type that it gives; or the fields of a struct.
type Types = Vec<String>;

pub fn run(run: &mut Run) {
    entries(run);
    structs(run);
    run.case(|_| {
        let mut words = HEADER.split(|letter: char| !letter.is_alphanumeric() && letter != '_');
        let has_bool = words.any(|word| ["bool", "_Bool", "stdbool"].contains(&word));
        wanted(has_bool, false, || "a bool in the header".to_owned())
    });
}

fn entries(run: &mut Run) {
    let (declared, linked) = (declared::entries(), linked::entries());
    let exported = exported::entries();
    let names = declared.keys().cloned().collect::<BTreeSet<_>>();
    run.case(|_| {
        wanted(archive_entries(), names.clone(), || "entries that the archive defines".to_owned())
    });
    run.case(|_| {
        let linked = linked.keys().cloned().collect::<BTreeSet<_>>();
        wanted(linked, names.clone(), || "entries that the port declares".to_owned())
    });
    run.case(|_| {
        let exported = exported.keys().cloned().collect::<BTreeSet<_>>();
        wanted(exported, names.clone(), || "entries that the sources export".to_owned())
    });
    run.case(|_| wanted(taken(), declared::slices(), || "slices of calls in bytes".to_owned()));
    for (name, types) in declared {
        let passed = &types[..types.len() - 1];
        run.case(|_| passes_no_struct(&name, passed));
        run.case(|_| {
            let exported = exported.get(&name).cloned().unwrap_or_default();
            wanted(&exported[..], passed, || format!("the parameters of {name} in the sources"))
        });
        run.case(|_| {
            let linked = linked.get(&name).cloned().unwrap_or_default();
            wanted(linked, types.clone(), || format!("the parameters and the result of {name}"))
        });
    }
}

/// A struct may only be what an entry gives.
fn passes_no_struct(name: &str, passed: &[String]) -> Outcome {
    let structs = linked::structs();
    let is_struct = |parameter: &&String| {
        parameter.split_once(": ").is_some_and(|(_, kind)| structs.contains_key(kind))
    };
    let found = passed.iter().filter(is_struct).collect();
    wanted(found, Vec::new(), || format!("structs that are passed to {name}"))
}

/// What the calls in bytes are of: every entry that is lent a slice.
fn taken() -> BTreeMap<String, Types> {
    let of_entry = |(entry, read, written): &(Entry, &[Name], &[Name])| {
        let read = read.iter().map(|name| format!("{name:?}"));
        let written = written.iter().map(|name| format!("mut {name:?}"));
        (format!("{entry:?}"), read.chain(written).collect())
    };
    TAKEN.iter().map(of_entry).collect()
}

fn structs(run: &mut Run) {
    let (declared, linked) = (declared::structs(), linked::structs());
    run.case(|_| {
        let laid_out = port::DECLARATIONS.matches("#[repr(C").count();
        wanted(laid_out, linked.len(), || "structs of the port laid out as in C".to_owned())
    });
    run.case(|_| {
        let measured = port::MEASURES.iter().map(|own| own.name.to_owned());
        let names = declared.keys().cloned().collect::<BTreeSet<_>>();
        wanted(measured.collect(), names, || "structs whose places are known".to_owned())
    });
    let asserted = declared::measures();
    for (name, fields) in declared {
        run.case(|_| {
            let own = linked.get(&name).cloned().unwrap_or_default();
            wanted(own, fields, || format!("the fields of {name}"))
        });
        run.case(|_| {
            let own = asserted.get(&name).cloned().unwrap_or_default();
            wanted(own, linked::measure(&name), || format!("the length and the places of {name}"))
        });
    }
}

/// The functions that the archive defines for everybody, by `nm`.
fn archive_entries() -> BTreeSet<String> {
    let output = Command::new("nm").args(["--defined-only", port::ARCHIVE]).output();
    let output = output.expect("nm can be run");
    assert!(output.status.success(), "nm reads the archive");
    let text = String::from_utf8(output.stdout).expect("nm writes text");
    let entry = |line: &str| {
        let (rest, name) = line.rsplit_once(' ')?;
        (rest.ends_with(" T") && name.starts_with(PREFIX)).then(|| name.to_owned())
    };
    text.lines().filter_map(entry).collect()
}
