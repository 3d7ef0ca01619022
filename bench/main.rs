//! Times this reader beside the Rust, in one run and over the same texts. See docs/PERFORMANCE.md.
#[cfg(chunks)]
mod chunks;
mod clock;
#[cfg(packs)]
mod coders;
mod cut;
#[cfg(form_2)]
mod forms;
#[cfg(packs)]
mod packs;
mod race;
mod readers;
mod table;
mod texts;

#[allow(dead_code)]
#[path = "../tools/compare/cases.rs"]
mod cases;
#[allow(dead_code)]
#[path = "../tools/compare/model.rs"]
mod model;
#[allow(dead_code)]
#[path = "../tools/compare/protocol.rs"]
mod protocol;
#[path = "../examples/rust/thrinvage.rs"]
mod thrinvage;
// the wrapper's structs have other names for the same fields
#[cfg(chunks)]
#[allow(dead_code, clashing_extern_declarations)]
#[path = "../tools/compare/feeding.rs"]
mod feeding;

use cut::Batch;
use oracle::api::Machine;
use oracle::kind;
use race::race;
use readers::Reader;
use std::path::PathBuf;
use std::process::ExitCode;
use std::time::Instant;
use table::{Line, TOKENS, print};
use texts::Corpus;

const USAGE: &str = "usage: bench --demo FOLDER [--rounds N] [--real FOLDER]..";
const SIZES: [usize; 4] = [1_024, 4_096, 16_384, model::LONGEST_TEXT];

struct Options {
    rounds: usize,
    demo: PathBuf,
    real: Vec<PathBuf>,
}

fn options() -> Option<Options> {
    let mut options = Options { rounds: 21, demo: "demo".into(), real: Vec::new() };
    let mut words = std::env::args().skip(1);
    while let Some(word) = words.next() {
        match word.as_str() {
            "--rounds" => options.rounds = words.next()?.parse().ok()?,
            "--demo" => options.demo = words.next()?.into(),
            "--real" => options.real.push(words.next()?.into()),
            _ => return None,
        }
    }
    (options.rounds > 0).then_some(options)
}

/// Every corpus at every size, where its clauses make such texts.
fn batches(corpora: &[Corpus], machine: &mut Machine) -> Vec<Batch> {
    let mut all: Vec<Batch> = Vec::new();
    for corpus in corpora {
        all.extend(SIZES.map(|size| corpus.batch(size, machine)));
    }
    all.retain(|batch| !batch.pieces.is_empty());
    all
}

/// The token call and the text call, each beside the Rust.
fn beside_the_rust(batches: &[Batch], rounds: usize) -> (Vec<Line>, Vec<Line>) {
    let timed = batches.iter().map(|batch| {
        let readers = [Reader::token_call(), Reader::text_call(), Reader::rust()];
        let [tokens, texts, rust] = race(readers.map(|reader| reader.over(batch)), rounds);
        let of = batch.amount();
        (Line { of, times: [tokens, rust] }, Line { of, times: [texts, rust] })
    });
    timed.unzip()
}

fn beside_the_token_calls(batches: &[Batch], rounds: usize) -> Vec<Line> {
    let timed = batches.iter().map(|batch| {
        let readers = [Reader::token_call(), Reader::clause_call()];
        Line { of: batch.amount(), times: race(readers.map(|reader| reader.over(batch)), rounds) }
    });
    timed.collect()
}

/// Texts of one size are enough: the cost of a byte does not grow with the text.
#[cfg(layout)]
fn timed_with_layout(batches: &[Batch], rounds: usize) {
    let longest = batches.iter().filter(|batch| batch.size == model::LONGEST_TEXT);
    let timed = longest.map(|batch| {
        let readers = [Reader::token_call(), Reader::stretches()];
        Line { of: batch.amount(), times: race(readers.map(|reader| reader.over(batch)), rounds) }
    });
    let lines: Vec<Line> = timed.collect();
    print("The token call and the layout calls between beside the token call", TOKENS, ["token call", "with layout"], &lines);
}

/// What has no token of more than 1,024 bytes.
#[cfg(chunks)]
fn timed_in_chunks(corpora: &[Corpus], machine: &mut Machine, rounds: usize) {
    let short: Vec<Corpus> = corpora.iter().map(Corpus::of_short_tokens).collect();
    println!();
    short.iter().for_each(|corpus| println!("chunks, {}", corpus.said()));
    chunks::run(&batches(&short, machine), rounds);
}

fn run(options: &Options) {
    let mut machine = Machine::default();
    let corpora = texts::corpora(&options.real, &options.demo, &mut machine);
    let clauses: Vec<Corpus> = corpora.iter().map(Corpus::of_the_grammar).collect();
    corpora.iter().for_each(|corpus| println!("{}", corpus.said()));
    clauses.iter().for_each(|corpus| println!("clause call, {}", corpus.said()));
    let of_tokens = batches(&corpora, &mut machine);
    let (tokens, texts) = beside_the_rust(&of_tokens, options.rounds);
    print("The token call beside the Rust", TOKENS, ["token call", "Rust"], &tokens);
    print("The text call, each text copied out, beside the Rust", TOKENS, ["text call", "Rust"], &texts);
    #[cfg(layout)]
    timed_with_layout(&of_tokens, options.rounds);
    let of_clauses = batches(&clauses, &mut machine);
    let lines = beside_the_token_calls(&of_clauses, options.rounds);
    print("The clause call beside the token calls", TOKENS, ["token calls", "clause call"], &lines);
    #[cfg(chunks)]
    timed_in_chunks(&corpora, &mut machine, options.rounds);
    #[cfg(packs)]
    packs::run(&of_clauses, options.rounds);
    #[cfg(form_2)]
    forms::run(&of_clauses, options.rounds);
}

fn main() -> ExitCode {
    let Some(options) = options() else {
        eprintln!("{USAGE}");
        return ExitCode::from(2);
    };
    let start = Instant::now();
    run(&options);
    let times = start.elapsed().as_nanos() as f64 / clock::nanoseconds();
    println!("\nThe run took {times:.2} times its processor time: 1.00 on an idle machine.");
    ExitCode::SUCCESS
}
