//! Replies to the requests of embed/tests/client_sides.py, one on each line.

use coniks::client::{
    Alarm, Cause, Client, Comparison, Evidence, Found, Keys, Misuse, Policy, Refusal, Report, Settings, Step, Succession,
    Trust, Watched,
};
use coniks::{EvidenceKind, Head};
use std::collections::BTreeMap;
use std::io::{stdin, BufRead};
use std::num::NonZeroUsize;
use std::sync::atomic::{AtomicU64, Ordering};
use std::sync::Arc;
use std::time::Duration;

/// Why a request has no result.
enum Fault {
    Refused(Refusal),
    Misused,
}

impl From<Refusal> for Fault {
    fn from(refusal: Refusal) -> Self {
        Self::Refused(refusal)
    }
}

impl From<Misuse> for Fault {
    fn from(_: Misuse) -> Self {
        Self::Misused
    }
}

fn bytes(word: &str) -> Vec<u8> {
    let word = word.trim_start_matches('.');
    (0..word.len() / 2).map(|i| u8::from_str_radix(&word[2 * i..2 * i + 2], 16).expect("two digits")).collect()
}

/// `-` stands for nothing.
fn given<T>(word: &str, read: impl Fn(&str) -> T) -> Option<T> {
    (word != "-").then(|| read(word))
}

fn number(word: &str) -> u64 {
    word.parse().expect("a number")
}

fn hex(bytes: &[u8]) -> String {
    if bytes.is_empty() {
        return ".".into();
    }
    bytes.iter().map(|it| format!("{it:02x}")).collect()
}

fn printed<T: ToString>(value: Option<T>) -> String {
    value.map_or("-".into(), |it| it.to_string())
}

fn head(epoch: &str, link: &str) -> Result<Head, Fault> {
    Ok(Head { epoch: number(epoch), link: bytes(link).try_into().map_err(|_| Fault::Misused)? })
}

fn seen(it: Option<Watched>) -> String {
    it.map_or("-".into(), |it| format!("{it:?}").to_lowercase())
}

fn found(it: &Found) -> String {
    let key = it.key.as_deref().map(hex);
    format!("{} {} {} {} {}", it.epoch, printed(key), seen(it.seen), printed(it.age), it.first_seen)
}

fn evidence(it: Option<&Evidence>) -> String {
    it.map_or("-".into(), |it| {
        let kind = match it.kind {
            EvidenceKind::Overlap => "overlap",
            EvidenceKind::OtherPolicy => "other-policy",
            EvidenceKind::Malformed => "malformed",
        };
        format!("{kind} {} {}", hex(&it.mine), hex(&it.other))
    })
}

fn refused(it: &Refusal) -> String {
    let name = if it.cause == Cause::VersionUnknown { "Version".into() } else { format!("{:?}", it.cause) };
    format!("refused {name} {} {}", printed(it.status.map(|it| it as u32)), evidence(it.evidence.as_deref()))
}

fn compared(it: Comparison) -> String {
    format!("{it:?}").to_lowercase()
}

fn listed(first: &str, rest: impl Iterator<Item = String>) -> String {
    std::iter::once(first.to_string()).chain(rest).collect::<Vec<_>>().join(" ")
}

fn fed(steps: &[Step]) -> String {
    listed("fed", steps.iter().map(|it| format!("{}:{}", it.epoch, seen(it.seen))))
}

fn alarms(alarms: &[Alarm]) -> String {
    listed("alarms", alarms.iter().map(|it| format!("{}:{}", it.epoch, seen(Some(it.seen)))))
}

fn report(it: &Report) -> String {
    let (name, from, to) = match *it {
        Report::Changed(epoch) => ("changed", epoch, epoch),
        Report::Missing(epoch) => ("missing", epoch, epoch),
        Report::Lost(epoch) => ("lost", epoch, epoch),
        Report::Unwatched => ("unwatched", 0, 0),
        Report::Unconfirmed(from, to) => ("unconfirmed", from, to),
        Report::Good(from, to) => ("good", from, to),
    };
    format!("report {name} {from} {to}")
}

/// The client, the time of its clock, and the trust document that the next client names.
#[derive(Default)]
struct Session {
    now: Arc<AtomicU64>,
    trust: Option<Trust>,
    client: Option<Client>,
}

impl Session {
    /// The keys, the policy and the settings of the first six words.
    fn parts(&mut self, words: &[&str]) -> Result<(Keys, Policy, Settings), Fault> {
        self.client = None;
        self.now = Arc::new(AtomicU64::new(number(words[0])));
        self.published(&words[1..])
    }

    /// The same without the time. The trust document is taken.
    fn published(&mut self, words: &[&str]) -> Result<(Keys, Policy, Settings), Fault> {
        let now = self.now.clone();
        let mut settings = Settings {
            max_age: given(words[0], number).map(Duration::from_secs),
            clock: Box::new(move || Duration::from_secs(now.load(Ordering::Relaxed))),
            trust: self.trust.take(),
            ..Settings::default()
        };
        if let Some(skew) = given(words[1], number) {
            settings.skew = Duration::from_secs(skew);
        }
        let policy = Policy::read(&bytes(words[4])).map_err(|_| Fault::Misused)?;
        let keys = Keys::new(&bytes(words[2]), given(words[3], bytes).as_deref())?;
        Ok((keys, policy, settings))
    }

    /// Goes on in another directory, in which the later requests are answered.
    fn succeed(&mut self, words: &[&str]) -> Result<String, Fault> {
        let published = self.published(words);
        let succession = Succession::read(&bytes(words[5])).map_err(|_| Fault::Misused)?;
        let (keys, policy, settings) = published?;
        let client = self.client.as_ref().expect("a client");
        let succeeded = client.succeed(&succession, keys, policy, &bytes(words[6]), settings)?;
        self.client = Some(succeeded.client);
        let epoch = |it: &[u8; 209]| u64::from_be_bytes(it[1..9].try_into().expect("eight bytes")).to_string();
        Ok(listed("void", succeeded.void.iter().map(epoch)))
    }

    fn begin(&mut self, words: &[&str]) -> Result<String, Fault> {
        let (keys, policy, settings) = self.parts(words)?;
        self.client = Some(match given(words[6], bytes) {
            Some(state) => Client::resume(keys, policy, &state, settings)?,
            None => Client::new(keys, policy, settings)?,
        });
        Ok("begun".into())
    }

    fn vouched(&mut self, words: &[&str]) -> Result<String, Fault> {
        let (keys, policy, settings) = self.parts(words)?;
        let least = words[7].parse().ok().and_then(NonZeroUsize::new).ok_or(Fault::Misused)?;
        let mut heads = BTreeMap::new();
        for (auditor, word) in words[8..].iter().enumerate() {
            let (epoch, link) = word.split_once(':').expect("an epoch and a link");
            heads.insert(auditor.to_string(), head(epoch, link)?);
        }
        self.client = Some(Client::vouched(keys, policy, &bytes(words[6]), &heads, least, settings)?);
        Ok("begun".into())
    }

    fn answer(&mut self, words: &[&str]) -> Result<String, Fault> {
        match words[0] {
            "begin" => return self.begin(&words[1..]),
            "vouched" => return self.vouched(&words[1..]),
            "succeed" => return self.succeed(&words[1..]),
            "now" => {
                self.now.store(number(words[1]), Ordering::Relaxed);
                return Ok("set".into());
            }
            "trust" => {
                let (digest, auditors, faulty) = (bytes(words[1]), words[2].parse(), words[3].parse());
                let digest = digest.try_into().map_err(|_| Fault::Misused)?;
                self.trust = Some(Trust::new(digest, auditors.expect("a number"), faulty.expect("a number"))?);
                return Ok("set".into());
            }
            _ => (),
        }
        let client = self.client.as_mut().expect("a client");
        Ok(match words[0] {
            "feed" => fed(&client.feed(words[1..].iter().map(|it| bytes(it)))?),
            "catchup" => fed(&client.feed_catch_up(&bytes(words[1]))?),
            "lookup" => {
                let it = client.lookup(bytes(words[1]), &bytes(words[2]), given(words[3], number))?;
                format!("found {}", found(&it))
            }
            "history" => listed("found", client.history(bytes(words[1]), &bytes(words[2]))?.iter().map(found)),
            "watch" => {
                client.watch(bytes(words[1]), given(words[2], bytes).as_deref(), given(words[3], number))?;
                "watching".into()
            }
            "expect" => {
                client.expect(given(words[1], bytes).as_deref(), number(words[2]))?;
                "expected".into()
            }
            "missing" => listed("missing", client.missing().iter().map(u64::to_string)),
            "lost" => listed("lost", client.lost().iter().map(u64::to_string)),
            "head" => format!("head {}", printed(client.head().map(|it| format!("{} {}", it.epoch, hex(&it.link))))),
            "compare" => compared(client.compare(&head(words[1], words[2])?)),
            "cover" => compared(client.cover(&head(words[1], words[2])?)),
            "evidence" => format!("evidence {}", evidence(client.evidence(&bytes(words[1]))?.as_ref())),
            "state" => format!("state {}", hex(&client.state())),
            "mark" => compared(client.mark(number(words[1]) as usize, &head(words[2], words[3])?)?),
            "confirmed" => format!("confirmed {}", printed(client.confirmed())),
            "drop" => listed("dropped", client.drop_confirmed().iter().map(u64::to_string)),
            "alarms" => alarms(&client.alarms()),
            "note" => {
                client.note(number(words[1]));
                alarms(&client.alarms())
            }
            "report" => report(&client.report()?),
            other => panic!("no request: {other}"),
        })
    }
}

fn main() {
    let mut session = Session::default();
    for line in stdin().lock().lines() {
        let line = line.expect("a line");
        let words: Vec<&str> = line.split(' ').collect();
        println!(
            "{}",
            session.answer(&words).unwrap_or_else(|fault| match fault {
                Fault::Refused(it) => refused(&it),
                Fault::Misused => "misuse".into(),
            })
        );
    }
}
