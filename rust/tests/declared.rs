//! What `library.rs` and `layout.rs` say again is what the library's source says: the structs field by field, the exports parameter by parameter.

use std::collections::BTreeMap;

fn text(path: &str) -> String {
    let path = format!("{}/{}", env!("CARGO_MANIFEST_DIR"), path);
    std::fs::read_to_string(&path).unwrap_or_else(|error| panic!("{path}: {error}"))
}

/// The files of a folder.
fn sources(folder: &str) -> Vec<String> {
    let path = format!("{}/{}", env!("CARGO_MANIFEST_DIR"), folder);
    let entries = std::fs::read_dir(&path).unwrap_or_else(|error| panic!("{path}: {error}"));
    entries.map(|entry| format!("{folder}/{}", entry.expect("a file").file_name().to_string_lossy())).collect()
}

/// The fields of each struct that has the C layout.
fn structs(source: &str) -> BTreeMap<&str, Vec<&str>> {
    let mut found = BTreeMap::new();
    for part in source.split("#[repr(C)]").skip(1) {
        let (name, rest) =
            part.split_once("pub struct ").and_then(|(_, part)| part.split_once(" {")).expect("a struct");
        let (fields, _) = rest.split_once('}').expect("its end");
        found.insert(name, fields.lines().map(str::trim).filter(|line| !line.is_empty()).collect());
    }
    found
}

#[test]
fn the_structs_are_the_librarys() {
    let ours = text("src/layout.rs");
    let (head, answers) = (text("../crates/hub/src/lib.rt"), text("../crates/crossing/src/lib.rt"));
    let mut theirs = structs(&head);
    theirs.extend(structs(&answers));
    let mut ours = structs(&ours);
    assert!(ours.remove("Fields").is_some());
    assert_eq!(ours.len(), 14);
    assert_eq!(ours, theirs);
}

#[test]
fn the_columns_are_the_librarys() {
    let (ours, theirs) = (text("src/layout.rs"), text("../crates/columns/src/lib.rt"));
    let columns: Vec<&str> = theirs.lines().filter(|line| line.starts_with("pub type ")).collect();
    assert_eq!(columns.len(), 5);
    assert!(columns.iter().all(|column| ours.lines().any(|line| line == *column)));
}

/// The exports of a source, each with its parameters and what it answers: from `fn copperyarn_..` to the end given.
fn exports(source: &str, end: &str) -> BTreeMap<String, (Vec<String>, String)> {
    let mut found = BTreeMap::new();
    for part in source.split("fn copperyarn_").skip(1) {
        let (signature, _) = part.split_once(end).expect("its end");
        let (head, answer) = signature.rsplit_once(") -> ").expect("an answer");
        let (name, parameters) = head.split_once('(').expect("parameters");
        let parameters = parameters.split(',').map(str::trim).filter(|parameter| !parameter.is_empty());
        let name = name.trim_end_matches("<'s>").to_string();
        found.insert(name, (parameters.flat_map(in_rust).collect(), answer.trim().to_string()));
    }
    found
}

/// A parameter of the library's source as Rust has it: an array by its name in `layout.rs`, a slice as pointer and size.
fn in_rust(parameter: &str) -> Vec<String> {
    let (name, of_type) = parameter.split_once(": ").expect("a name and a type");
    let name = if name == "p" { "pad" } else { name };
    match of_type.replace("'s ", "").as_str() {
        "&[u8]" => vec![format!("{name}: *const u8"), format!("{name}_size: usize")],
        "&mut [u8]" => vec![format!("{name}: *mut u8"), format!("{name}_size: usize")],
        of_type => {
            let named =
                of_type.replace("[u32; 208]", "Codes").replace("[u8; 208]", "Bytes").replace("[bool; 208]", "Bools");
            vec![format!("{name}: {named}")]
        }
    }
}

#[test]
fn the_declarations_are_the_librarys() {
    let ours = text("src/library.rs");
    let (block, _) = ours.split_once("}\n").expect("the block's end");
    let ours = exports(block, ";\n");
    let mut theirs = BTreeMap::new();
    for file in sources("../crates/copperyarn/src") {
        theirs.extend(exports(&text(&file), "\n    ensures"));
    }
    assert_eq!(ours.len(), 28);
    assert_eq!(ours, theirs);
}
