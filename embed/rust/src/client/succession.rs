//! The succession of a directory, by which a client goes on in another one.

use super::cause::{Evidence, Refusal};
use super::causes::Cause;
use super::policy::{digits, number, Lines, Policy};
use super::schemes::Keys;
use super::{verdicts, Client, Settings};
use crate::{client_core as core_calls, convicts, Head, ENTRY_BYTES};
use core::fmt;
use std::string::{String, ToString};
use std::vec::Vec;

/// The bytes are no succession.
#[derive(Clone, Copy, Debug, PartialEq, Eq, Hash)]
pub struct NoSuccession;

impl fmt::Display for NoSuccession {
    fn fmt(&self, f: &mut fmt::Formatter<'_>) -> fmt::Result {
        f.write_str("this is no succession of docs/FORMATS.md: take the bytes that its directory publishes")
    }
}

impl core::error::Error for NoSuccession {}

/// What ends the chain of one policy, and names the directory that goes on. `docs/FORMATS.md` defines its text. Nothing of it is verified:
/// [`Client::succeed`] does that.
#[derive(Clone, Debug, PartialEq, Eq)]
pub struct Succession {
    /// The digest of the policy that ends.
    pub policy: [u8; 32],
    /// The last head of its chain.
    pub last: Head,
    /// The digest of the policy that goes on.
    pub next_policy: [u8; 32],
    /// The first head of its chain that counts.
    pub first: Head,
    lines: String,
    signature: [u8; 64],
}

impl Succession {
    /// Returns what a text says.
    ///
    /// # Errors
    ///
    /// [`NoSuccession`] for any other bytes.
    pub fn read(text: &[u8]) -> Result<Self, NoSuccession> {
        core::str::from_utf8(text).ok().and_then(Self::taken).ok_or(NoSuccession)
    }

    fn taken(text: &str) -> Option<Self> {
        let mut it = Lines::of(text);
        it.line("succession coniks-1")?;
        let policy = digits(it.value("policy ")?)?;
        let last = head(&mut it, "last-epoch ", "last-link ")?;
        let next_policy = digits(it.value("next-policy ")?)?;
        let first = head(&mut it, "first-epoch ", "first-link ")?;
        let lines = text.strip_suffix(it.rest())?.to_string();
        let signature = digits(it.value("signature ")?)?;
        let is_whole = it.rest().is_empty() && policy != next_policy;
        is_whole.then_some(Self { policy, last, next_policy, first, lines, signature })
    }

    /// Returns the text.
    #[must_use]
    pub fn text(&self) -> String {
        let digits: String = self.signature.iter().map(|it| std::format!("{it:02x}")).collect();
        std::format!("{}signature {digits}\n", self.lines)
    }
}

/// Takes the two lines of a head. An epoch is at least 1.
fn head(it: &mut Lines<'_>, epoch: &str, link: &str) -> Option<Head> {
    let epoch = number(it.value(epoch)?).filter(|it| *it > 0)?;
    Some(Head { epoch, link: digits(it.value(link)?)? })
}

/// A client of the directory that goes on.
#[derive(Debug)]
pub struct Succeeded {
    /// The client. It has the first entry that counts.
    pub client: Client,
    /// The entries of the client before it that are void: those after the last epoch.
    pub void: Vec<[u8; ENTRY_BYTES]>,
}

/// The succession.
impl Client {
    /// Returns a client of the directory that a succession of this one's policy names, which watches the same name.
    ///
    /// Keys, policy and settings are those of the next client, and the entry is the first one of the next chain that counts. This client
    /// stays as it is: if an entry is void, keep one with the succession, and tell the user. A client that has only the digest of its
    /// policy knows no successor key.
    ///
    /// # Errors
    ///
    /// [`Cause::PolicyKeys`], then those of `docs/FORMATS.md`, "A succession".
    pub fn succeed(
        &self,
        succession: &Succession,
        keys: Keys,
        policy: Policy,
        entry: &[u8],
        settings: Settings,
    ) -> Result<Succeeded, Refusal> {
        let mut client = Self::new(keys, policy, settings)?;
        let received = client.received(entry, client.now());
        let (status, place) = client.core.go_on(&self.core, &self.verified(succession), &received);
        if status == 0 {
            let void = self.entries().skip(place.saturating_add(1)).copied().collect();
            return Ok(Succeeded { client, void });
        }
        let cause = Cause::of(status);
        let is_convicting = matches!(cause, Cause::OtherPolicy | Cause::Malformed);
        let evidence = if is_convicting { alone(entry)? } else { None };
        Err(Refusal::with(cause, None, evidence))
    }

    /// Returns a succession as the core takes it, with the verdict on its signature.
    fn verified(&self, it: &Succession) -> core_calls::Succession {
        core_calls::Succession {
            signature: verdicts::of_succession(self.successor.as_ref(), it.lines.as_bytes(), &it.signature),
            policy: it.policy,
            last_epoch: it.last.epoch,
            last_link: it.last.link,
            next_policy: it.next_policy,
            first_epoch: it.first.epoch,
            first_link: it.first.link,
        }
    }
}

/// Returns what an entry convicts the provider of by itself, None if a chain can have it.
pub(super) fn alone(entry: &[u8]) -> Result<Option<Evidence>, Refusal> {
    let (other, kind) = (entry.try_into().ok(), convicts(entry, entry)?);
    Ok(other.zip(kind).map(|(other, kind)| Evidence { mine: other, other, kind }))
}
