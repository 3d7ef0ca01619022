//! Takes a few whole items of ast.rs and arena.rs, byte for byte, from SCRYER_SRC into OUT_DIR, where the shims include them.
//! lexer.rs and char_reader.rs are not taken: lib.rs includes them where they stand.
use std::{env, fs, path::Path};

const AST_ITEMS: [&str; 13] = [
    "pub enum GInteger {",
    "impl GInteger {",
    "pub struct MachineFlags {",
    "pub enum DoubleQuotes {",
    "impl DoubleQuotes {",
    "pub enum Unknown {",
    "pub struct Location {",
    "impl Location {",
    "pub struct ParserError {",
    "pub(crate) enum ParserErrorKind {",
    "impl ParserError {",
    "impl From<IOError> for ParserError {",
    "pub enum Literal {",
];
const ARENA_ITEMS: [&str; 2] = ["macro_rules! arena_alloc {", "macro_rules! float_alloc {"];

/// The item that begins with the line `head`, with its attributes, to the first `}` at a line's start.
fn item(source: &str, head: &str) -> String {
    let lines: Vec<&str> = source.lines().collect();
    let heads: Vec<usize> = (0..lines.len()).filter(|&i| lines[i] == head).collect();
    assert!(heads.len() == 1, "item {head:?} found {} times", heads.len());
    let mut first = heads[0];
    while first > 0 && lines[first - 1].starts_with("#[") {
        first -= 1;
    }
    let last = (heads[0]..lines.len()).find(|&i| lines[i] == "}").expect("the item's end");
    lines[first..=last].join("\n") + "\n\n"
}

fn take(file: &str, heads: &[&str], made: &str) {
    let from = Path::new(&env::var("SCRYER_SRC").expect("SCRYER_SRC")).join(file);
    let source = fs::read_to_string(&from).unwrap_or_else(|e| panic!("{}: {e}", from.display()));
    let items: String = heads.iter().map(|head| item(&source, head)).collect();
    fs::write(Path::new(&env::var("OUT_DIR").expect("OUT_DIR")).join(made), items).expect("OUT_DIR");
}

fn main() {
    take("src/parser/ast.rs", &AST_ITEMS, "ast_items.rs");
    take("src/arena.rs", &ARENA_ITEMS, "arena_macros.rs");
}
