//! Tables of times.
use crate::race::Times;

/// What the work of a line is: so many texts or packs of one size, with so many parts in them, tokens or nodes.
#[derive(Clone, Copy)]
pub struct Amount {
    pub name: &'static str,
    pub size: usize,
    pub pieces: usize,
    pub parts: usize,
    pub bytes: usize,
}

/// Two that do it, beside each other.
pub struct Line {
    pub of: Amount,
    pub times: [Times; 2],
}

/// What a table calls a size, its pieces, their parts, and the time of one.
pub struct Words {
    size: &'static str,
    pieces: &'static str,
    parts: &'static str,
    a_part: &'static str,
}

pub const TOKENS: Words = Words { size: "size", pieces: "texts", parts: "tokens", a_part: "ns/tok" };
#[cfg(chunks)]
pub const CHUNKS: Words = Words { size: "chunk", ..TOKENS };
#[cfg(packs)]
pub const NODES: Words = Words { size: "size", pieces: "packs", parts: "nodes", a_part: "ns/node" };

impl Line {
    /// The ratios are the right one's time over the left one's: of the medians, and of the least.
    fn show(&self) -> String {
        let Amount { name, size, pieces, parts, .. } = self.of;
        let [a, b] = self.times;
        let (ratio, of_least) = (b.median / a.median, b.least / a.least);
        let [left, right] = self.times.map(|times| self.rates(times));
        format!("{name:<9}{size:>6}{pieces:>6}{parts:>8} |{left} |{right} |{ratio:>6.2}{of_least:>7.2}")
    }

    /// Megabytes a second, then nanoseconds a part: the median's, and the least.
    fn rates(&self, times: Times) -> String {
        let a_part = |time: f64| time / self.of.parts as f64;
        let megabytes = self.of.bytes as f64 * 1000.0 / times.median;
        format!("{megabytes:>8.1}{:>8.1}{:>8.1}", a_part(times.median), a_part(times.least))
    }
}

pub fn print(title: &str, words: Words, sides: [&str; 2], lines: &[Line]) {
    let Words { size, pieces, parts, a_part } = words;
    let [left, right] = sides;
    println!("\n{title}\n");
    println!("{:<29} |{left:^24} |{right:^24} |", "");
    let columns = format!("{:>8}{:>8}{:>8}", "MB/s", a_part, "least");
    println!("{:<9}{size:>6}{pieces:>6}{parts:>8} |{columns} |{columns} |{:>6}{:>7}", "text", "ratio", "least");
    for line in lines {
        println!("{}", line.show());
    }
}
