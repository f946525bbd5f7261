//! The audit in plain Rust: the commands `replay`, `audit`, `generate` and `audit-generated` of `audit_cli`, by the same rules,
//! without proofs and with the standard library alone. With PLAIN_STATS set, figures and times go to standard error.

mod build;
mod json;
mod report;
mod search;
mod steno;

use std::io::Write;
use std::time::Instant;

pub const LIMIT_DICTS: usize = 16;
pub const LIMIT_BYTES: usize = 67_108_864;
pub const LIMIT_ENTRIES: u64 = 1_048_576;
pub const LIMIT_NODES: u64 = 4_194_304;
pub const LIMIT_STATES: u64 = 33_554_432;

pub enum Stop {
    /// A refusal: its line (without line feed) and its status.
    Line(Vec<u8>, i32),
    /// The output failed.
    Output,
}

pub struct Out {
    buf: Vec<u8>,
    pub total: u64,
}

impl Out {
    pub fn new() -> Out {
        Out { buf: Vec::with_capacity(1 << 17), total: 0 }
    }
    pub fn buf(&mut self) -> &mut Vec<u8> {
        &mut self.buf
    }
    pub fn spill(&mut self) -> Result<(), Stop> {
        if self.buf.len() >= 1 << 16 {
            self.flush()?;
        }
        Ok(())
    }
    pub fn flush(&mut self) -> Result<(), Stop> {
        let ok = std::io::stdout().lock().write_all(&self.buf).is_ok();
        self.total += self.buf.len() as u64;
        self.buf.clear();
        if ok { Ok(()) } else { Err(Stop::Output) }
    }
    pub fn write_piece(&mut self, piece: &[u8]) -> Result<(), Stop> {
        self.total += piece.len() as u64;
        if std::io::stdout().lock().write_all(piece).is_ok() { Ok(()) } else { Err(Stop::Output) }
    }
}

/// Times and figures for standard error.
pub struct Stats {
    on: bool,
    last: Instant,
    text: String,
}

impl Stats {
    pub fn new() -> Stats {
        Stats { on: std::env::var_os("PLAIN_STATS").is_some(), last: Instant::now(), text: String::new() }
    }
    pub fn on(&self) -> bool {
        self.on
    }
    pub fn phase(&mut self, name: &str) {
        if self.on {
            let t = self.last.elapsed();
            self.text.push_str(&format!("phase {name} {:.2} ms, peak so far {} kB\n", t.as_secs_f64() * 1e3, peak()));
            self.last = Instant::now();
        }
    }
    pub fn figure(&mut self, name: &str, n: u64) {
        if self.on {
            self.text.push_str(&format!("{name} {n}\n"));
        }
    }
    fn show(&self) {
        if self.on {
            eprint!("{}", self.text);
        }
    }
}

fn peak() -> u64 {
    let s = std::fs::read_to_string("/proc/self/status").unwrap_or_default();
    s.lines().find_map(|l| l.strip_prefix("VmHWM:")).and_then(|l| l.trim().trim_end_matches(" kB").trim().parse().ok()).unwrap_or(0)
}

pub fn push_num(out: &mut Vec<u8>, mut n: u64) {
    let mut b = [0u8; 20];
    let mut i = 20;
    loop {
        i -= 1;
        b[i] = b'0' + (n % 10) as u8;
        n /= 10;
        if n == 0 {
            break;
        }
    }
    out.extend_from_slice(&b[i..]);
}

fn number(word: &str, most: u64) -> Option<u64> {
    let b = word.as_bytes();
    if b.is_empty() || !b.iter().all(|c| c.is_ascii_digit()) || (b.len() > 1 && b[0] == b'0') {
        return None;
    }
    word.parse::<u64>().ok().filter(|n| *n <= most)
}

fn limit(name: &str, n: u64) -> Stop {
    Stop::Line(format!("limit {name} {n}").into_bytes(), 5)
}

/// The DICT words as (name, is a word file).
fn dicts(words: &[String]) -> Option<Vec<(&str, bool)>> {
    if words.is_empty() {
        return None;
    }
    let mut v = Vec::with_capacity(words.len());
    for w in words {
        match w.strip_prefix("match:") {
            Some("") => return None,
            Some(name) => v.push((name, false)),
            None => v.push((w.as_str(), true)),
        }
    }
    Some(v)
}

fn load(files: &[(&str, bool)], st: &mut Stats) -> Result<build::Loaded, Stop> {
    if files.len() > LIMIT_DICTS {
        return Err(limit("dictionaries", files.len() as u64));
    }
    let mut l = build::Loaded::new();
    for (i, (name, is_word)) in files.iter().enumerate() {
        l.read(i, name, *is_word)?;
    }
    st.phase("read");
    Ok(l)
}

fn run(words: &[String], out: &mut Out, st: &mut Stats) -> Result<i32, Stop> {
    let refused = || Stop::Line(b"refused words".to_vec(), 2);
    let cmd = words.first().map(|s| s.as_str()).unwrap_or("");
    match cmd {
        "replay" if words.len() >= 3 => {
            let strokes = steno::read_strokes(words[1].as_bytes()).ok_or_else(refused)?;
            let files = dicts(&words[2..]).ok_or_else(refused)?;
            let l = load(&files, st)?;
            let e = build::Entries::new(l)?;
            let t = build::Trie::new(&e)?;
            st.phase("build");
            report::replay(&e, &t, &strokes, out)?;
            st.phase("write");
            Ok(0)
        }
        "audit" if words.len() >= 3 => {
            let workers = number(&words[1], 32).filter(|n| *n > 0).ok_or_else(refused)? as usize;
            let files = dicts(&words[2..]).ok_or_else(refused)?;
            let l = load(&files, st)?;
            let e = build::Entries::new(l)?;
            st.phase("entries");
            let mut t = build::Trie::new(&e)?;
            let count = t.count_states()?;
            t.windows();
            st.phase("trie");
            let s = search::search(&t, count, workers);
            st.phase("search");
            figures(st, &e, &t, count, &s);
            let n = report::report(&e, &t, &s, workers, out, st)?;
            Ok((n > 0) as i32)
        }
        "generate" if words.len() == 3 => {
            let start = number(&words[1], u64::MAX).ok_or_else(refused)?;
            let count = number(&words[2], 100_000).ok_or_else(refused)? as u32;
            build::generate(start, count, out)?;
            st.phase("write");
            Ok(0)
        }
        "audit-generated" if words.len() == 4 => {
            let start = number(&words[1], u64::MAX).ok_or_else(refused)?;
            let count = number(&words[2], 100_000).ok_or_else(refused)? as u32;
            let workers = number(&words[3], 32).filter(|n| *n > 0).ok_or_else(refused)? as usize;
            let l = build::Loaded::generated(start, count);
            st.phase("read");
            let e = build::Entries::new(l)?;
            st.phase("entries");
            let mut t = build::Trie::new(&e)?;
            let count = t.count_states()?;
            t.windows();
            st.phase("trie");
            let s = search::search(&t, count, workers);
            st.phase("search");
            figures(st, &e, &t, count, &s);
            let n = report::summary(&e, &t, &s, out, st)?;
            Ok((n > 0) as i32)
        }
        _ => Err(refused()),
    }
}

fn figures(st: &mut Stats, e: &build::Entries, t: &build::Trie, count: u64, s: &search::Settled) {
    if st.on() {
        st.figure("entries", e.len() as u64);
        st.figure("strokes", e.stroke_count() as u64);
        st.figure("nodes", t.node_count() as u64);
        st.figure("state-numbers", count);
        st.figure("states", s.states);
        st.figure("rounds", s.rounds);
        st.figure("relaxed", s.relaxed);
        st.figure("empty-v-unmarked-states", s.plain);
        st.figure("their-kept-targets", s.plain_kept);
        st.figure("raw-moves", s.relaxed - s.plain_kept + s.plain * t.fresh_targets());
        let widths: Vec<String> = s.widths.iter().map(|w| w.to_string()).collect();
        st.text.push_str(&format!("widths {}\n", widths.join(" ")));
    }
}

fn main() {
    let mut words = Vec::new();
    let mut bad = false;
    for w in std::env::args_os().skip(1) {
        match w.into_string() {
            Ok(w) => words.push(w),
            Err(_) => bad = true,
        }
    }
    if bad {
        words.clear();
    }
    let mut st = Stats::new();
    let mut out = Out::new();
    let code = match run(&words, &mut out, &mut st).and_then(|c| out.flush().map(|_| c)) {
        Ok(c) => c,
        Err(Stop::Output) => 6,
        Err(Stop::Line(mut l, c)) => {
            out.buf().clear();
            l.push(b'\n');
            if out.write_piece(&l).is_ok() { c } else { 6 }
        }
    };
    st.phase("flush");
    st.figure("bytes-written", out.total);
    st.show();
    std::process::exit(code);
}
