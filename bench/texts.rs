//! The texts that are read: real Prolog, the demo files, generated ones.
use crate::cases::{self, Random};
use crate::cut::{self, Batch, Clause};
use oracle::api::Machine;
use std::path::{Path, PathBuf};

/// So much of a corpus is read at each size, if it has as much: more than the processor's branch predictor learns by heart.
const BATCH_BYTES: usize = 400_000;

pub struct Corpus {
    name: &'static str,
    clauses: Vec<Clause>,
    left_out: String,
}

impl Corpus {
    fn new(name: &'static str, source: &[u8], machine: &mut Machine) -> Corpus {
        let (clauses, left_out) = cut::clauses(source, machine);
        Corpus { name, clauses, left_out: format!("{left_out} places left out, where one of the two refuses") }
    }

    /// What the clause call takes of it.
    pub fn of_the_grammar(&self) -> Corpus {
        let clauses: Vec<Clause> = self.clauses.iter().filter(|clause| cut::is_of_the_grammar(clause)).cloned().collect();
        let left_out = format!("{} left out, which the clause call refuses", self.clauses.len() - clauses.len());
        Corpus { name: self.name, clauses, left_out }
    }

    /// What the reader of chunks does not refuse by 15.
    #[cfg(chunks)]
    pub fn of_short_tokens(&self) -> Corpus {
        let clauses: Vec<Clause> = self.clauses.iter().filter(|clause| cut::has_short_tokens(clause)).cloned().collect();
        let left_out = format!("{} left out, with a token of more than 1,024 bytes", self.clauses.len() - clauses.len());
        Corpus { name: self.name, clauses, left_out }
    }

    pub fn said(&self) -> String {
        let bytes: usize = self.clauses.iter().map(Vec::len).sum();
        format!("{}: {} clauses, {bytes} bytes; {}", self.name, self.clauses.len(), self.left_out)
    }

    /// Texts of about this size, taken evenly from the whole corpus; a short corpus is repeated.
    pub fn batch(&self, size: usize, machine: &mut Machine) -> Batch {
        let bytes: usize = self.clauses.iter().map(Vec::len).sum();
        let times = if bytes == 0 { 0 } else { size.div_ceil(bytes) };
        let repeated = (0..times).flat_map(|_| &self.clauses);
        let pieces = cut::joined(repeated, size);
        let every = (pieces.len() * size / BATCH_BYTES).max(1);
        Batch::new(self.name, size, pieces.into_iter().step_by(every).collect(), machine)
    }
}

pub fn corpora(folders: &[PathBuf], demo: &Path, machine: &mut Machine) -> Vec<Corpus> {
    let mut random = Random::new(1);
    let mut all = vec![Corpus::new("real", &real(folders), machine), Corpus::new("demo", &files(demo), machine)];
    for (name, clause) in GENERATED {
        all.push(Corpus::new(name, &generated(&mut random, clause), machine));
    }
    all
}

fn files(folder: &Path) -> Vec<u8> {
    let mut found = Vec::new();
    cases::paragraphs(folder, &mut found);
    found.concat()
}

/// Whatever Prolog is installed, file behind file.
fn real(folders: &[PathBuf]) -> Vec<u8> {
    let packages = cases::PACKAGES.iter().map(PathBuf::from);
    packages.chain(folders.iter().cloned()).flat_map(|folder| files(&folder)).collect()
}

// Generated texts: clauses of document 01's grammar, so that the clause call takes them too.

const GENERATED: [(&str, fn(&mut Random) -> String); 4] =
    [("names", names), ("numbers", numbers), ("comments", long_comment), ("quoted", long_quoted)];

fn generated(random: &mut Random, clause: fn(&mut Random) -> String) -> Vec<u8> {
    let mut text = String::new();
    while text.len() < BATCH_BYTES {
        text += &clause(random);
    }
    text.into_bytes()
}

const SYLLABLES: [&str; 16] =
    ["va", "lve", "ro", "of", "le", "e", "win", "d", "be", "ar", "ing", "s_", "x", "to", "north", "gla"];

fn among<T: Copy>(random: &mut Random, from: &[T]) -> T {
    from[random.below(from.len())]
}

fn word(random: &mut Random) -> String {
    (0..1 + random.below(4)).map(|_| among(random, &SYLLABLES)).collect()
}

fn variable(random: &mut Random) -> String {
    format!("{}{}", among(random, &["A", "Side", "_", "M"]), word(random))
}

fn several(random: &mut Random, least: usize, most: usize, between: &str, one: fn(&mut Random) -> String) -> String {
    let all: Vec<String> = (0..least + random.below(most - least + 1)).map(|_| one(random)).collect();
    all.join(between)
}

fn goal(random: &mut Random) -> String {
    let argument = |random: &mut Random| if random.below(2) == 0 { word(random) } else { variable(random) };
    format!("{}({})", word(random), several(random, 1, 4, ", ", argument))
}

fn names(random: &mut Random) -> String {
    format!("{} :-\n    {}.\n", goal(random), several(random, 1, 5, ",\n    ", goal))
}

fn number(random: &mut Random) -> String {
    let digits = 1 + random.below(9) as u32;
    let n = random.below(10usize.pow(digits));
    match random.below(10) {
        0 => format!("0x{n:x}"),
        1 => format!("0'{}", among(random, &["a", "\\n", "''", " "])),
        2 | 3 => format!("{}.{}", n / 1000, n % 1000),
        4 => format!("{}.{}e{}", n / 1000, n % 1000, among(random, &["10", "-7", "+3"])),
        _ => n.to_string(),
    }
}

fn numbers(random: &mut Random) -> String {
    format!("t([{}]).\n", several(random, 8, 24, ", ", number))
}

fn line(random: &mut Random) -> String {
    several(random, 8, 14, " ", word)
}

fn long_comment(random: &mut Random) -> String {
    let lines = several(random, 4, 8, "\n   ", line);
    let comment = if random.below(2) == 0 { format!("/* {lines}\n*/") } else { format!("%  {}", lines.replace("\n ", "\n%")) };
    format!("{comment}\n{}.\n", goal(random))
}

fn piece_of_quoted(random: &mut Random) -> String {
    let end = among(random, &["", "", "", " \\n", " ''", " \\x41\\", " \\\\", " \\\n"]);
    line(random) + end
}

fn long_quoted(random: &mut Random) -> String {
    let quoted = several(random, 1, 8, " ", piece_of_quoted);
    let item = if random.below(2) == 0 { format!("'{quoted}'") } else { format!("\"{}\"", quoted.replace("''", "\"\"")) };
    format!("note({item}).\n")
}
