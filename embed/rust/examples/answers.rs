//! Replies to the requests of embed/tests/sides.py, one on each line.

use coniks::{Auditor, Body, Error, EvidenceKind, Monitor, Seen};
use std::io::{stdin, BufRead};

fn bytes(word: &str) -> Vec<u8> {
    let word = word.trim_start_matches('-');
    (0..word.len() / 2).map(|i| u8::from_str_radix(&word[2 * i..2 * i + 2], 16).expect("two digits")).collect()
}

fn bytes32(word: &str) -> [u8; 32] {
    bytes(word).try_into().expect("32 bytes")
}

fn hex(bytes: &[u8]) -> String {
    bytes.iter().map(|it| format!("{it:02x}")).collect()
}

fn printed(answer: Result<String, Error>) -> String {
    answer.unwrap_or_else(|error| format!("refused {}", error as u32))
}

fn check(words: &[&str]) -> String {
    let (name, proof) = (bytes(words[3]), bytes(words[4]));
    let key = coniks::check(&bytes32(words[0]), &bytes32(words[1]), &bytes32(words[2]), &name, &proof);
    printed(key.map(|it| it.map_or("absent".into(), |key| format!("key {}", hex(key)))))
}

fn body(entry: &[u8]) -> Result<String, Error> {
    let it = Body::of_entry(entry)?;
    let parts = [it.root, it.previous_link, it.nonce, it.policy].map(|it| hex(&it)).join(" ");
    Ok(format!("{} {} {} {parts} {}", it.version, it.epoch, it.previous_epoch, hex(&it.bytes())))
}

fn kind(it: Option<EvidenceKind>) -> String {
    it.map_or(0, |kind| kind as u32).to_string()
}

fn seen(it: Seen) -> String {
    format!("{it:?}").to_lowercase()
}

/// The name, the index and the key of the monitor, and both auditors.
#[derive(Default)]
struct Session {
    name: Vec<u8>,
    index: [u8; 32],
    expected: Vec<u8>,
    watching: Auditor,
    auditor: Auditor,
}

impl Session {
    fn step(&mut self, words: &[&str]) -> String {
        let auditor = Auditor::resume(self.watching.state());
        let mut monitor = Monitor { name: &self.name, index: self.index, expected: &self.expected, auditor };
        let answer = monitor.step(&bytes(words[0]), words[1] == "1", &bytes(words[2]));
        self.watching = monitor.auditor;
        printed(answer.map(seen))
    }

    fn answer(&mut self, word: &str, words: &[&str]) -> String {
        match word {
            "check" => check(words),
            "begin" => {
                self.auditor = Auditor::new();
                hex(&self.auditor.state())
            }
            "feed" => printed(self.auditor.feed(&bytes(words[0]), words[1] == "1").map(|()| "follows".into())),
            "head" => printed(self.auditor.head().map(|it| format!("{} {}", it.epoch, hex(&it.link))).ok_or(Error::NoEntry)),
            "resume" => {
                self.auditor = Auditor::resume(self.auditor.state());
                hex(&self.auditor.state())
            }
            "watch" => {
                (self.name, self.index, self.watching) = (bytes(words[0]), bytes32(words[1]), Auditor::new());
                "watched".into()
            }
            "expect" => {
                self.expected = bytes(words[0]);
                "expected".into()
            }
            "step" => self.step(words),
            "convicts" => printed(coniks::convicts(&bytes(words[0]), &bytes(words[1])).map(kind)),
            "link" => printed(coniks::link(&bytes(words[0])).map(|it| hex(&it))),
            "body" => printed(body(&bytes(words[0]))),
            "text" => coniks::text(words[0].parse().expect("a number"), &mut [0; 128]).into(),
            _ => coniks::version().map(|it| it.to_string()).join("."),
        }
    }
}

fn main() {
    let mut session = Session::default();
    for line in stdin().lock().lines() {
        let line = line.expect("a line");
        let words: Vec<&str> = line.split(' ').collect();
        println!("{}", session.answer(words[0], &words[1..]));
    }
}
