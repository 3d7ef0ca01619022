//! Holds the reader that is fed chunks against the token call on the whole text: random texts, cut at random. See tools/README.md.
#[allow(dead_code)]
mod cases;
mod cuts;
mod feeding;
#[allow(dead_code)]
mod kind;
mod layout;
#[allow(dead_code)]
mod model;
#[allow(dead_code)]
mod protocol;
mod slips;
mod whole;

use cases::{Maker, Random};
use cuts::Cut;
use feeding::{Feeding, MORE, READ, REFUSED_AT, Token};
use slips::{SLIPS, Slip};
use std::fmt::Write;
use std::process::ExitCode;
use whole::{LONGEST_TEXT, LONGEST_TOKEN, NOT_VALID, Next, Whole};

const USAGE: &str = "usage: chunks [--seed N] [--texts N] [--jobs N]
       chunks --seed N --only N     (the text of this number alone)
       chunks --self-test [--seed N]";
const REFUSALS: usize = 19;
const SHOWN_DIFFERENCES: usize = 5;
/// One in so many waits is looked at: whether what came so far tells nothing more.
const LOOKED_AT: usize = 4;
/// Of a text in so many, a chunk comes behind the end; and it goes on behind a refusal.
const FED_BEHIND_THE_END: usize = 20;
const GOES_ON: usize = 8;
/// The self-test gives a fault so many texts to show in.
const TRIED: u64 = 300_000;

#[derive(Default)]
struct Counts {
    texts: u64,
    bytes: u64,
    chunks: u64,
    empty: u64,
    calls: u64,
    tokens: u64,
    longest: u64,
    waits: u64,
    looked_at: u64,
    refusals: [u64; REFUSALS],
    different: u64,
}

impl Counts {
    fn add(&mut self, other: &Counts) {
        self.texts += other.texts;
        self.bytes += other.bytes;
        self.chunks += other.chunks;
        self.empty += other.empty;
        self.calls += other.calls;
        self.tokens += other.tokens;
        self.longest = self.longest.max(other.longest);
        self.waits += other.waits;
        self.looked_at += other.looked_at;
        self.different += other.different;
        self.refusals.iter_mut().zip(other.refusals).for_each(|(sum, more)| *sum += more);
    }

    fn print(&self) {
        println!("texts {}, {} bytes, in {} chunks, {} of them empty", self.texts, self.bytes, self.chunks, self.empty);
        println!("calls {}: {} tokens, the longest of {} bytes", self.calls, self.tokens, self.longest);
        println!("waits {}: {} looked at, whether what came tells no more", self.waits, self.looked_at);
        let by_number = self.refusals.iter().enumerate().filter(|(_, count)| **count > 0);
        let shown: Vec<String> = by_number.map(|(number, count)| format!("{count} of {number}")).collect();
        println!("refusals: {}", shown.join(", "));
        println!("{} different", self.different);
    }
}

/// One text, on its way through a reader.
struct Run<'r> {
    text: &'r [u8],
    whole: Whole,
    feeding: &'r mut Feeding,
    slip: &'r mut Slip,
    random: &'r mut Random,
    counts: &'r mut Counts,
    /// the last token, and how many bytes were taken
    last: Token,
    taken: usize,
}

/// What a reader did that it should not.
type Fault = String;

fn unless(so: bool, fault: impl FnOnce() -> Fault) -> Result<(), Fault> {
    if so { Ok(()) } else { Err(fault()) }
}

impl Run<'_> {
    /// One call: how many bytes it took, and whether it has given the last refusal.
    fn call(&mut self, chunk: &[u8]) -> Result<(usize, Option<Next>), Fault> {
        let (number, token) = self.slip.feed(self.feeding, chunk);
        self.counts.calls += 1;
        let taken = self.feeding.state.taken as usize;
        unless(taken <= chunk.len(), || format!("{taken} bytes are taken of {}", chunk.len()))?;
        self.taken += taken;
        match number {
            READ => self.hold_token(token).map(|()| (taken, None)),
            MORE => self.hold_wait(taken, chunk.len()).map(|()| (taken, None)),
            _ => Ok((taken, Some(Next::Refused(number, token[REFUSED_AT] as usize)))),
        }
    }

    fn hold_token(&mut self, token: Token) -> Result<(), Fault> {
        let due = self.whole.next(&self.last);
        unless(due == Next::Token(token), || format!("given {:?}, due {due:?}", Next::Token(token)))?;
        let own = self.whole.part(token[feeding::START], token[feeding::OFFSET]);
        unless(self.feeding.token_bytes() == own, || format!("its bytes are {:?}, due {own:?}", self.feeding.token_bytes()))?;
        self.counts.tokens += 1;
        self.counts.longest = self.counts.longest.max(token[feeding::OFFSET] - token[feeding::START]);
        self.last = token;
        Ok(())
    }

    /// It waits only where the bytes that came do not tell: then a rule looks behind them. With 1,025 bytes of a token it waits for two more alone.
    fn hold_wait(&mut self, taken: usize, length: usize) -> Result<(), Fault> {
        self.counts.waits += 1;
        unless(taken > 0 || length == 0, || "waits, with bytes left and none taken".into())?;
        let at_hand = self.feeding.at_hand() as usize;
        if at_hand > LONGEST_TOKEN {
            let start = self.taken - at_hand;
            let may_return = self.text[start].is_ascii_digit() && b".eE+-".contains(&self.text[start + LONGEST_TOKEN]);
            return unless(may_return && at_hand < LONGEST_TOKEN + 3, || format!("waits with {at_hand} bytes at hand"));
        }
        if self.taken >= LONGEST_TEXT || self.random.below(LOOKED_AT) > 0 {
            return Ok(());
        }
        self.counts.looked_at += 1;
        unless(self.whole.is_open(self.taken, &self.last), || format!("waits with {} bytes taken, which tell what comes", self.taken))
    }

    /// A chunk until all of it is taken and nothing more comes of it.
    fn chunk(&mut self, chunk: &[u8]) -> Result<Option<Next>, Fault> {
        self.counts.chunks += 1;
        self.counts.empty += u64::from(chunk.is_empty());
        let mut left = chunk;
        loop {
            let before = self.last;
            let (taken, refused) = self.call(left)?;
            left = &left[taken..];
            if refused.is_some() || (left.is_empty() && self.last == before) {
                return Ok(refused);
            }
        }
    }

    /// All chunks, then the end. A chunk that passes the limit is refused, and so is, now and then, one that comes behind the end.
    fn read(&mut self) -> Result<(), Fault> {
        let mut cut = Cut::new(self.random, self.text.len());
        let mut at = 0;
        while at < self.text.len() {
            let chunk = &self.text[at..][..cut.next(self.random, self.text.len() - at)];
            at += chunk.len();
            if at > LONGEST_TEXT {
                return self.hold_not_valid(chunk);
            }
            if let Some(refused) = self.chunk(chunk)? {
                return self.hold_refused(refused);
            }
        }
        self.feeding.finish();
        if self.random.below(FED_BEHIND_THE_END) == 0 {
            return self.hold_not_valid(b" ");
        }
        for _ in 0..=self.text.len() {
            if let (_, Some(refused)) = self.call(b"")? {
                return self.hold_refused(refused);
            }
        }
        Err("comes to no end".into())
    }

    /// A chunk that may not come.
    fn hold_not_valid(&mut self, chunk: &[u8]) -> Result<(), Fault> {
        let due = Next::Refused(NOT_VALID, 0);
        let (taken, refused) = self.call(chunk)?;
        unless(taken == 0 && refused == Some(due), || format!("a chunk that may not come: {taken} taken, {refused:?}"))?;
        self.hold_repeated(due)
    }

    fn hold_refused(&mut self, refused: Next) -> Result<(), Fault> {
        let due = self.whole.next(&self.last);
        unless(refused == due, || format!("given {refused:?}, due {due:?}"))?;
        self.hold_repeated(refused)
    }

    /// Each further call repeats the refusal, takes nothing and leaves reader and window as they are.
    fn hold_repeated(&mut self, refused: Next) -> Result<(), Fault> {
        if let Next::Refused(number, _) = refused {
            self.counts.refusals[number as usize] += 1;
        }
        if self.random.below(GOES_ON) > 0 {
            return Ok(());
        }
        let before = (feeding::State { taken: 0, ..self.feeding.state }, self.feeding.window.clone());
        for chunk in [&b""[..], b"a. "] {
            if self.random.chance(50) {
                self.feeding.finish();
            }
            let (taken, again) = self.call(chunk)?;
            unless(taken == 0 && again == Some(refused), || format!("refused by {refused:?}, and then {taken} taken, {again:?}"))?;
            unless(before == (self.feeding.state, self.feeding.window.clone()), || "a call behind a refusal changes reader or window".into())?;
        }
        Ok(())
    }
}

/// The reader that is compared, with a slip in the self-test alone, and what makes the texts.
struct Subject {
    maker: Maker,
    feeding: Feeding,
    slip: Slip,
    longest: usize,
}

impl Subject {
    fn new(slip: Slip, longest: usize) -> Subject {
        Subject { maker: Maker::new(0), feeding: Feeding::new(0), slip, longest }
    }

    /// A text is made from the seed and its number alone, so that it can be run again by itself.
    fn run(&mut self, seed: u64, number: u64, counts: &mut Counts) -> Result<(), (Vec<u8>, Fault)> {
        self.maker.random = Random::new(seed.wrapping_mul(0x2545_f491_4f6c_dd1d).wrapping_add(number));
        let text = cuts::text(&mut self.maker);
        counts.texts += 1;
        counts.bytes += text.len() as u64;
        self.feeding.restart(self.maker.random.below(256) as u8);
        self.slip.start();
        let random = &mut self.maker.random;
        let whole = Whole::new(&text, self.longest);
        let (feeding, slip) = (&mut self.feeding, &mut self.slip);
        Run { text: &text, whole, feeding, slip, random, counts, last: Token::default(), taken: 0 }.read().map_err(|fault| (text, fault))
    }
}

fn shown(text: &[u8]) -> String {
    let mut shown = String::new();
    for byte in text.iter().take(300) {
        write!(shown, "{}", byte.escape_ascii()).expect("a string takes it");
    }
    shown
}

/// The texts whose numbers leave this rest, and the first of them that are different.
fn job(seed: u64, numbers: impl Iterator<Item = u64>) -> (Counts, Vec<String>) {
    let (mut counts, mut found) = (Counts::default(), Vec::new());
    let mut subject = Subject::new(Slip::none(), LONGEST_TOKEN);
    for number in numbers {
        if let Err((text, fault)) = subject.run(seed, number, &mut counts) {
            counts.different += 1;
            if found.len() < SHOWN_DIFFERENCES {
                found.push(format!("different: --seed {seed} --only {number}: {fault}\n    {} bytes: {}", text.len(), shown(&text)));
            }
        }
    }
    (counts, found)
}

fn compare(seed: u64, first: u64, texts: u64, jobs: u64) -> ExitCode {
    println!("the archive ({}), chunks beside the whole, seed {seed}", env!("ARCHIVE_SUM"));
    let numbers = |rest: u64| (first..first + texts).filter(move |number| number % jobs == rest);
    let done: Vec<_> = std::thread::scope(|scope| {
        let started: Vec<_> = (0..jobs).map(|rest| scope.spawn(move || job(seed, numbers(rest)))).collect();
        started.into_iter().map(|thread| thread.join().expect("no job fails")).collect()
    });
    let mut sum = Counts::default();
    done.iter().for_each(|(counts, _)| sum.add(counts));
    done.iter().flat_map(|(_, found)| found).take(SHOWN_DIFFERENCES).for_each(|line| println!("{line}"));
    sum.print();
    if sum.different == 0 { ExitCode::SUCCESS } else { ExitCode::FAILURE }
}

/// The first text that shows the fault.
fn noticed(seed: u64, slip: Slip, longest: usize) -> Option<(u64, Fault)> {
    let mut subject = Subject::new(slip, longest);
    let mut counts = Counts::default();
    (0..TRIED).find_map(|number| subject.run(seed, number, &mut counts).err().map(|(_, fault)| (number, fault)))
}

fn self_test(seed: u64) -> ExitCode {
    let mut tried: Vec<(&str, Slip, usize)> = SLIPS.iter().map(|(name, ..)| (*name, Slip::named(name), LONGEST_TOKEN)).collect();
    tried.push(("the comparison takes 1,023 bytes for the longest token", Slip::none(), LONGEST_TOKEN - 1));
    tried.push(("the comparison takes 1,025 bytes for the longest token", Slip::none(), LONGEST_TOKEN + 1));
    let (count, mut missed) = (tried.len(), 0);
    for (name, slip, longest) in tried {
        match noticed(seed, slip, longest) {
            Some((number, fault)) => println!("{name}: noticed, text {number}: {fault}"),
            None => {
                println!("{name}: NOT NOTICED");
                missed += 1;
            }
        }
    }
    let without = noticed(seed, Slip::none(), LONGEST_TOKEN);
    println!("self-test: {count} faults, {missed} missed; without a fault: {}", without.as_ref().map_or("nothing", |(_, fault)| fault));
    if missed == 0 && without.is_none() { ExitCode::SUCCESS } else { ExitCode::FAILURE }
}

fn run() -> Option<ExitCode> {
    let (mut seed, mut texts, mut jobs, mut only, mut testing) = (1, 1_000_000, 1, None, false);
    let mut words = std::env::args().skip(1);
    while let Some(word) = words.next() {
        let mut number = || words.next()?.parse::<u64>().ok();
        match word.as_str() {
            "--seed" => seed = number()?,
            "--texts" => texts = number()?,
            "--jobs" => jobs = number().filter(|&jobs| jobs > 0)?,
            "--only" => only = Some(number()?),
            "--self-test" => testing = true,
            _ => return None,
        }
    }
    Some(match only {
        _ if testing => self_test(seed),
        Some(number) => compare(seed, number, 1, 1),
        None => compare(seed, 0, texts, jobs),
    })
}

fn main() -> ExitCode {
    run().unwrap_or_else(|| {
        eprintln!("{USAGE}");
        ExitCode::from(2)
    })
}
