//! What the static library's exports promise: word for word what the functions of the crate `lapped` do, which they call
//! and of which the clients use each clause.

mod common;
use common::*;
use std::collections::BTreeMap;
use std::fs;

/// The functions of a source that C sees: by name, the parameters, the result and the clauses, on one line each.
fn promises(path: &str, marked: &str) -> BTreeMap<String, String> {
    let source = fs::read_to_string(root().join(path)).expect(path);
    let mut functions = BTreeMap::new();
    for text in source.split(marked).skip(1) {
        let (promise, _) = text.split_once("\n{\n").expect("a function has a body");
        let (name, promise) = promise.split_once('(').expect("a function has parameters");
        let words: Vec<&str> = promise.split_whitespace().collect();
        // Where the layout breaks a list of parameters, it sets a comma behind the last.
        functions.insert(name.to_string(), words.join(" ").replace(", )", ")"));
    }
    functions
}

/// The names that the clauses cite, with the modules that they come from.
fn cited(path: &str) -> Vec<String> {
    let source = fs::read_to_string(root().join(path)).expect(path);
    source.lines().filter(|line| line.starts_with("ghost use ")).map(String::from).collect()
}

#[test]
fn exports_promise_what_the_library_does() {
    let (library, exports) = ("crates/lapped/src/lib.rt", "crates/lapped_c/src/lib.rt");
    let promised = promises(library, "\npub fn ");
    let exported = promises(exports, "\n#[unsafe(no_mangle)]\npub extern \"C\" fn ");
    assert_eq!(promised.len(), 11);
    assert_eq!(exported, promised);
    assert_eq!(cited(exports), cited(library));
}
