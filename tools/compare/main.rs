//! Holds the probe, or the archive, or the model in their place, against the Rust. See tools/README.md.
#[cfg(archive)]
mod archive;
mod cases;
mod departures;
mod faults;
mod judge;
mod layout;
mod model;
mod notation;
mod protocol;
mod store;
#[cfg(archive)]
#[path = "../../examples/rust/thrinvage.rs"]
mod thrinvage;

use cases::Maker;
use judge::{Counts, Difference, Rust};
use model::Reading;
use oracle::kind;
use protocol::{Answer, Case};
use std::io::{Read, Write};
use std::path::PathBuf;
use std::process::{Command, ExitCode, Stdio};
use std::sync::{Mutex, mpsc};

const USAGE: &str = "usage: compare [--seed N] [--cases N] [--jobs N] [--real FOLDER].. [--archive | --probe COMMAND ARGUMENT..]
       compare --self-test [--seed N] [--archive]
       compare --departures [--cases N]
       compare --store FILE [--seed N] [--cases N]
       compare --check FOLDER/      (FOLDER/ that holds a stored list, stdin and stdout)";

/// A run of the probe gets this many cases, or this many bytes.
const BATCH_CASES: usize = 25_000;
const BATCH_BYTES: usize = 8_000_000;
/// Where an answer has another form, the cases behind it are put to the probe anew, so often.
const MOST_RUNS: usize = 20;
/// Runs of this many cases hold every byte behind every beginning too, which makes 86,016 of them.
const EVERY_BYTE_FROM: usize = 200_000;
/// Runs of this many cases hold the texts at the limits of length too, 65,535 bytes each.
const LONG_FROM: usize = 250_000;
const SHOWN_DIFFERENCES: usize = 5;
/// Shrinking puts no more bytes than these to the probe at once.
const SHRINK_BYTES: usize = 1_000_000;

/// Answers to a case, made in this process; some are made from the model's readings.
type Ask = fn(&Case, &[Reading]) -> Vec<Answer>;

/// Who answers the cases.
enum Source {
    Model,
    Archive(Ask),
    Probe(Vec<String>),
}

/// The archive, where tools/compare/build found one to link; it says which by the first digits of its SHA-256.
#[cfg(archive)]
const ARCHIVE: Option<(Ask, &str)> = Some((archive::answers, env!("ARCHIVE_SUM")));
#[cfg(not(archive))]
const ARCHIVE: Option<(Ask, &str)> = None;

impl Source {
    fn archive() -> Source {
        let Some((ask, _)) = ARCHIVE else {
            eprintln!("compare: target/native/libthrinvage.a is missing, or was when tools/compare/build ran: nothing is compared");
            std::process::exit(2)
        };
        Source::Archive(ask)
    }

    fn name(&self) -> String {
        match self {
            Source::Model => "the model".into(),
            Source::Archive(_) => format!("the archive ({})", ARCHIVE.expect("linked").1),
            Source::Probe(words) => words.join(" "),
        }
    }
}

struct Options {
    seed: u64,
    cases: Option<usize>,
    jobs: usize,
    real: Vec<PathBuf>,
    source: Source,
    self_test: bool,
    departures: bool,
    store: Option<PathBuf>,
    check: Option<String>,
}

fn options() -> Option<Options> {
    let mut options = Options {
        seed: 1,
        cases: None,
        jobs: 1,
        real: Vec::new(),
        source: Source::Model,
        self_test: false,
        departures: false,
        store: None,
        check: None,
    };
    let mut words = std::env::args().skip(1);
    while let Some(word) = words.next() {
        match word.as_str() {
            "--seed" => options.seed = words.next()?.parse().ok()?,
            "--cases" => options.cases = Some(words.next()?.parse().ok()?),
            "--jobs" => options.jobs = words.next()?.parse().ok()?,
            "--real" => options.real.push(words.next()?.into()),
            "--archive" => options.source = Source::archive(),
            "--probe" => {
                let probe: Vec<String> = words.by_ref().collect();
                options.source = Source::Probe((!probe.is_empty()).then_some(probe)?);
            }
            "--self-test" => options.self_test = true,
            "--departures" => options.departures = true,
            "--store" => options.store = Some(words.next()?.into()),
            "--check" => options.check = Some(words.next()?),
            _ => return None,
        }
    }
    (options.jobs > 0).then_some(options)
}

/// Runs the probe once over a batch, and gives what it wrote; a probe that cannot be run at all ends the comparison.
fn run_probe(probe: &[String], batch: &[Case]) -> String {
    let mut input = Vec::new();
    batch.iter().for_each(|case| case.write(&mut input));
    let spawned = Command::new(&probe[0]).args(&probe[1..]).stdin(Stdio::piped()).stdout(Stdio::piped()).spawn();
    let mut child = spawned.unwrap_or_else(|error| {
        eprintln!("compare: {}: {error}", probe[0]);
        std::process::exit(2)
    });
    let mut stdin = child.stdin.take().expect("piped");
    // a probe that stops early closes its input: what it wrote tells
    let feeder = std::thread::spawn(move || stdin.write_all(&input).is_ok());
    let mut output = Vec::new();
    child.stdout.take().expect("piped").read_to_end(&mut output).expect("the probe's output");
    feeder.join().expect("no panic");
    child.wait().expect("the probe ends");
    String::from_utf8_lossy(&output).into_owned()
}

/// The answers to one case from the probe's lines, and whether they are all there.
fn take_answers<'l>(case: &Case, lines: &mut impl Iterator<Item = &'l str>) -> (Vec<Answer>, bool) {
    let mut given = Vec::new();
    while let Some(answer) = Answer::parse(case.call, lines) {
        let goes_on = answer.goes_on(case.call).is_some();
        given.push(answer);
        if !goes_on {
            return (given, true);
        }
    }
    (given, false)
}

struct Subject<'s> {
    source: &'s Source,
    rust: Rust,
}

impl Subject<'_> {
    /// Judges a batch and hands each difference out, with the answers that were given.
    fn judge(&mut self, batch: &[Case], counts: &mut Counts, mut different: impl FnMut(&Case, Difference, Vec<Answer>)) {
        let mut rest = batch;
        for _ in 0..MOST_RUNS {
            let output = if let Source::Probe(probe) = self.source { run_probe(probe, rest) } else { String::new() };
            let mut lines = output.split_terminator('\n');
            let mut judged = 0;
            for case in rest {
                let held = protocol::readings(case);
                let (given, whole) = match self.source {
                    Source::Model => (protocol::answers(case, &held), true),
                    Source::Archive(ask) => (ask(case, &held), true),
                    Source::Probe(_) => take_answers(case, &mut lines),
                };
                if let Some(difference) = judge::judge(&mut self.rust, case, &held, &given, counts) {
                    different(case, difference, given);
                }
                judged += 1;
                if !whole {
                    break;
                }
            }
            rest = &rest[judged..];
            if rest.is_empty() {
                let more = lines.count();
                if more > 0 {
                    eprintln!("compare: {more} lines stand behind the last answer of a batch");
                    counts.different_from_model += 1;
                }
                return;
            }
        }
        counts.cases += rest.len() as u64;
        counts.different_from_model += rest.len() as u64;
        eprintln!("compare: the probe lost its place {MOST_RUNS} times: {} cases of a batch count as different", rest.len());
    }

    /// The first of some cases that is different, if one is.
    fn first_different(&mut self, batch: &[Case]) -> Option<(Case, Difference, Vec<Answer>)> {
        let mut first = None;
        self.judge(batch, &mut Counts::default(), |case, difference, given| {
            first.get_or_insert((case.clone(), difference, given));
        });
        first
    }

    /// Bytes are left out as long as the case stays different.
    fn shrink(&mut self, mut found: (Case, Difference, Vec<Answer>)) -> (Case, Difference, Vec<Answer>) {
        loop {
            let Case { call, cursor, room, text } = &found.0;
            let mut smaller = Vec::new();
            if cursor.offset > 0 && cursor.offset <= text.len() {
                smaller.push(Case::new(*call, model::Cursor::START, *room, &text[cursor.offset..]));
            }
            // halves first; single bytes only where the text is short
            let mut length = text.len() / 2;
            while length > text.len() / 2_000 {
                let most = SHRINK_BYTES / text.len() / 4;
                for at in (0..=text.len() - length).step_by(length).filter(|&at| at >= cursor.offset).take(most) {
                    smaller.push(Case::new(*call, *cursor, *room, &[&text[..at], &text[at + length..]].concat()));
                }
                length /= 2;
            }
            match self.first_different(&smaller) {
                Some(less) => found = less,
                None => return found,
            }
        }
    }
}

/// Hands out the cases of a run in batches; says which short texts were made, all of them.
fn make(options: &Options, total: usize, mut send: impl FnMut(Vec<Case>)) -> Vec<String> {
    let (mut batch, mut bytes, mut made) = (Vec::new(), 0, 0);
    let mut put = |case: Case, made: &mut usize| {
        bytes += case.text.len();
        *made += 1;
        batch.push(case);
        if batch.len() == BATCH_CASES || bytes > BATCH_BYTES {
            send(std::mem::take(&mut batch));
            bytes = 0;
        }
    };
    let mut put_short = |text: &[u8]| cases::short_cases(text).into_iter().for_each(|case| put(case, &mut made));
    let mut said = cases::short_texts(total / 2, &mut put_short);
    if total >= EVERY_BYTE_FROM {
        cases::every_byte(&mut put_short);
    }
    if total >= LONG_FROM {
        cases::long_cases().into_iter().for_each(|case| put(case, &mut made));
    }
    let mut maker = Maker::new(options.seed);
    let folders = cases::PACKAGES.iter().map(PathBuf::from).chain(options.real.iter().cloned());
    folders.for_each(|folder| cases::paragraphs(&folder, &mut maker.real));
    said.push(match maker.real.len() {
        0 => "real Prolog text: none is installed".to_string(),
        n => format!("real Prolog text: {n} paragraphs"),
    });
    for paragraph in maker.real.clone() {
        if made + 1 < total {
            put(Case::new(b'T', model::Cursor::START, 0, &paragraph), &mut made);
        }
    }
    while made < total {
        let text = maker.text();
        maker.cases_of(&text, &mut |case| {
            if made < total {
                put(case, &mut made)
            }
        });
    }
    send(batch);
    said
}

fn report(difference: &(Case, Difference, Vec<Answer>)) {
    let (case, what, given) = difference;
    let what = match what {
        Difference::FromRust(what) => format!("from the Rust, {what}"),
        Difference::FromModel(what) => format!("from document 01, {what}"),
    };
    println!("different: {}  {}\n    {what}", notation::show_case(case), notation::show_answers(case, given));
}

fn compare(options: &Options) -> ExitCode {
    let total = options.cases.unwrap_or(1_000_000);
    println!("{} beside the Rust, seed {}", options.source.name(), options.seed);
    let (sender, receiver) = mpsc::sync_channel::<Vec<Case>>(options.jobs);
    let receiver = Mutex::new(receiver);
    let sums = Mutex::new((Counts::default(), Vec::new()));
    let said = std::thread::scope(|scope| {
        for _ in 0..options.jobs {
            scope.spawn(|| {
                let mut subject = Subject { source: &options.source, rust: Rust::default() };
                loop {
                    let next = receiver.lock().expect("no worker fails").recv();
                    let Ok(batch) = next else { return };
                    let (mut counts, mut found) = (Counts::default(), Vec::new());
                    subject.judge(&batch, &mut counts, |case, difference, given| {
                        if found.len() < SHOWN_DIFFERENCES {
                            found.push((case.clone(), difference, given));
                        }
                    });
                    let mut sums = sums.lock().expect("no worker fails");
                    sums.0.add(&counts);
                    sums.1.extend(found);
                }
            });
        }
        let said = make(options, total, |batch| sender.send(batch).expect("a worker listens"));
        drop(sender);
        said
    });
    said.iter().for_each(|line| println!("{line}"));
    let (counts, mut found) = sums.into_inner().expect("no worker fails");
    found.sort_by_key(|(case, ..)| case.text.len());
    let mut subject = Subject { source: &options.source, rust: Rust::default() };
    let mut shown: Vec<Case> = Vec::new();
    for difference in found.into_iter().take(SHOWN_DIFFERENCES) {
        let smallest = subject.shrink(difference);
        if !shown.contains(&smallest.0) {
            report(&smallest);
            shown.push(smallest.0);
        }
    }
    let [one, two, others] = counts.refusals;
    println!("cases {}", counts.cases);
    println!("tokens compared {}, {} of them with their decoded text", counts.tokens, counts.texts);
    println!("layout texts compared {}", counts.layout_texts);
    println!("refusals compared {}: {one} of 1, {two} of 2, {others} others", one + two + others);
    println!("refusals 9 and 12 of tokens that the Rust accepts {}", counts.owed);
    let outside: Vec<String> = counts.outside.iter().map(|(why, n)| format!("{n} {why}")).collect();
    println!("out of domain {}: {}", counts.outside.values().sum::<u64>(), outside.join(", "));
    println!("answers compared with the model {}", if let Source::Model = options.source { 0 } else { counts.modelled });
    println!(
        "different {}: {} from the Rust, {} from document 01",
        counts.different(),
        counts.different_from_rust,
        counts.different_from_model
    );
    if counts.different() == 0 { ExitCode::SUCCESS } else { ExitCode::FAILURE }
}

fn self_test(options: &Options) -> ExitCode {
    let mut maker = Maker::new(options.seed);
    let mut cases = Vec::new();
    cases::short_texts(4_000, |text| cases.extend(cases::short_cases(text)));
    while cases.len() < 8_000 {
        let text = maker.text();
        maker.cases_of(&text, &mut |case| cases.push(case));
    }
    let ask = if let Source::Archive(ask) = options.source { ask } else { protocol::answers };
    if faults::self_test(&cases, ask) {
        println!("self-test: every fault was noticed");
        return ExitCode::SUCCESS;
    }
    println!("self-test: a fault was not noticed");
    ExitCode::FAILURE
}

/// Holds a stored list against the model and the Rust.
fn check(name: &str) -> std::io::Result<ExitCode> {
    let mut input = std::io::BufReader::new(std::fs::File::open(format!("{name}stdin"))?);
    let output = std::fs::read_to_string(format!("{name}stdout"))?;
    let mut lines = output.split_terminator('\n');
    let (mut rust, mut counts) = (Rust::default(), Counts::default());
    while let Some(case) = Case::read(&mut input)? {
        let (given, _) = take_answers(&case, &mut lines);
        if let Some(difference) = judge::judge_alone(&mut rust, &case, &given, &mut counts) {
            report(&(case, difference, given));
        }
    }
    let rest = lines.count();
    println!(
        "stored cases {}, out of domain {}, different {}, lines left over {rest}",
        counts.cases,
        counts.outside.values().sum::<u64>(),
        counts.different()
    );
    Ok(if counts.different() == 0 && rest == 0 { ExitCode::SUCCESS } else { ExitCode::FAILURE })
}

fn main() -> ExitCode {
    let Some(options) = options() else {
        eprintln!("{USAGE}");
        return ExitCode::from(2);
    };
    let done = if options.self_test {
        Ok(self_test(&options))
    } else if options.departures {
        departures::show(options.cases.unwrap_or(3_000_000));
        Ok(ExitCode::SUCCESS)
    } else if let Some(file) = &options.store {
        store::store(file, options.seed, options.cases.unwrap_or(3_000)).map(|()| ExitCode::SUCCESS)
    } else if let Some(name) = &options.check {
        check(name)
    } else {
        Ok(compare(&options))
    };
    done.unwrap_or_else(|error| {
        eprintln!("compare: {error}");
        ExitCode::from(2)
    })
}
