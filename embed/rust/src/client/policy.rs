//! The policy of a directory: a document whose SHA-256 is the policy digest of each entry.

use crate::sodium::sha256;
use core::fmt;
use core::num::NonZeroU64;
use std::string::{String, ToString};

/// Why bytes are no policy document, or why a time has no epoch.
#[derive(Clone, Copy, Debug, PartialEq, Eq, Hash)]
#[non_exhaustive]
pub enum PolicyError {
    /// The bytes are no policy document.
    Form,
    /// The policy has no clock.
    NoClock,
    /// Epoch 1 begins later.
    BeforeFirstEpoch,
    /// The last epoch number is 2^64 - 1.
    AfterLastEpoch,
}

impl fmt::Display for PolicyError {
    fn fmt(&self, f: &mut fmt::Formatter<'_>) -> fmt::Result {
        f.write_str(match self {
            Self::Form => "this is no policy document of docs/FORMATS.md: take the bytes that its directory publishes",
            Self::NoClock => "the policy has no clock: number the epochs yourself",
            Self::BeforeFirstEpoch => "epoch 1 begins later: see whether the clock is right",
            Self::AfterLastEpoch => "the last epoch number is 2^64 - 1: see whether the clock is right",
        })
    }
}

impl core::error::Error for PolicyError {}

/// The clock of a policy: when epoch 1 begins, in Unix seconds, and how many seconds an epoch lasts.
#[derive(Clone, Copy, Debug, PartialEq, Eq)]
pub(super) struct EpochClock {
    pub(super) start: u64,
    pub(super) period: NonZeroU64,
}

impl EpochClock {
    /// Returns when an epoch begins, in Unix seconds: at most 2^128 - 2^65 + 1.
    pub(super) fn begins(self, epoch: u64) -> u128 {
        u128::from(self.start) + u128::from(epoch.saturating_sub(1)) * u128::from(self.period.get())
    }

    /// Returns how many seconds ago an epoch began, below 0 if it has not begun.
    pub(super) fn age(self, epoch: u64, now: u64) -> i128 {
        i128::from(now).saturating_sub(self.begins(epoch).try_into().unwrap_or(i128::MAX))
    }
}

/// What a directory promises for its life. `docs/FORMATS.md` defines its document.
#[derive(Clone, Debug, PartialEq, Eq)]
pub struct Policy {
    document: String,
    origin: String,
    signing_key: [u8; 32],
    vrf_key: Option<[u8; 32]>,
    clock: Option<EpochClock>,
    proofs_kept: Option<u64>,
    records_vouched: bool,
    successor_key: Option<[u8; 32]>,
}

impl Policy {
    /// Returns the policy of a document.
    ///
    /// # Errors
    ///
    /// [`PolicyError::Form`] for any other bytes. A policy has exactly one document.
    pub fn read(document: &[u8]) -> Result<Self, PolicyError> {
        Lines::read(document).ok_or(PolicyError::Form)
    }

    /// Returns the document.
    #[must_use]
    pub fn bytes(&self) -> &[u8] {
        self.document.as_bytes()
    }

    /// Returns the policy digest: SHA-256 of the document.
    #[must_use]
    pub fn digest(&self) -> [u8; 32] {
        sha256(self.bytes())
    }

    /// Returns the name of the directory: 1 to 255 printable ASCII characters without space.
    #[must_use]
    pub fn origin(&self) -> &str {
        &self.origin
    }

    /// Returns the public signing key of the directory (Ed25519).
    #[must_use]
    pub fn signing_key(&self) -> &[u8; 32] {
        &self.signing_key
    }

    /// Returns the public key of the directory's VRF (ECVRF-EDWARDS25519-SHA512-TAI), None without a VRF.
    #[must_use]
    pub fn vrf_key(&self) -> Option<&[u8; 32]> {
        self.vrf_key.as_ref()
    }

    /// Returns when epoch 1 begins, in Unix seconds, None in a directory without a clock.
    #[must_use]
    pub fn epoch_start(&self) -> Option<u64> {
        self.clock.map(|it| it.start)
    }

    /// Returns how many seconds an epoch lasts, None in a directory without a clock.
    #[must_use]
    pub fn epoch_period(&self) -> Option<NonZeroU64> {
        self.clock.map(|it| it.period)
    }

    /// Returns for how many seconds the directory keeps its proofs, None if it does for ever.
    #[must_use]
    pub fn proofs_kept(&self) -> Option<u64> {
        self.proofs_kept
    }

    /// Returns whether the directory promises that each key is a record of its owner. Two replies that show a change which the owner
    /// did not sign convict it then (`docs/FORMATS.md`, "Keys that their owners vouch for").
    #[must_use]
    pub fn records_vouched(&self) -> bool {
        self.records_vouched
    }

    /// Returns the public key that signs a succession (Ed25519), which is kept offline, None if the directory has none.
    #[must_use]
    pub fn successor_key(&self) -> Option<&[u8; 32]> {
        self.successor_key.as_ref()
    }

    /// Returns the number of the epoch at a time in Unix seconds.
    ///
    /// # Errors
    ///
    /// Without a clock, before epoch 1, and after the last epoch number.
    pub fn epoch_at(&self, seconds: u64) -> Result<u64, PolicyError> {
        let clock = self.clock.ok_or(PolicyError::NoClock)?;
        let passed = seconds.checked_sub(clock.start).ok_or(PolicyError::BeforeFirstEpoch)?;
        (passed / clock.period).checked_add(1).ok_or(PolicyError::AfterLastEpoch)
    }

    pub(super) fn clock(&self) -> Option<EpochClock> {
        self.clock
    }
}

/// A directory's policy, or its digest alone, which has no clock and no keys.
#[derive(Clone, Debug, PartialEq, Eq)]
pub enum PolicyOrDigest {
    /// The policy of its document.
    Policy(Policy),
    /// The policy digest.
    Digest([u8; 32]),
}

impl From<Policy> for PolicyOrDigest {
    fn from(policy: Policy) -> Self {
        Self::Policy(policy)
    }
}

impl From<[u8; 32]> for PolicyOrDigest {
    fn from(digest: [u8; 32]) -> Self {
        Self::Digest(digest)
    }
}

/// The lines of a document that are not yet read.
pub(super) struct Lines<'a> {
    rest: &'a str,
}

impl<'a> Lines<'a> {
    pub(super) fn of(text: &'a str) -> Self {
        Self { rest: text }
    }

    /// Returns the lines that are not yet read.
    pub(super) fn rest(&self) -> &'a str {
        self.rest
    }

    fn read(document: &[u8]) -> Option<Policy> {
        let document = core::str::from_utf8(document).ok()?;
        let mut it = Lines::of(document);
        it.line("policy coniks-1")?;
        let origin = it.value("origin ").filter(|it| is_origin(it))?.to_string();
        it.line("signature Ed25519")?;
        let signing_key = digits(it.value("signing-key ")?)?;
        let vrf_key = it.vrf_key()?;
        let clock = it.clock()?;
        it.line("evidence one-chain")?;
        let records_vouched = it.records_vouched()?;
        let successor_key = it.successor_key()?;
        let proofs_kept = match it.value("proofs-kept ")? {
            "forever" => None,
            other => Some(number(other)?),
        };
        let is_whole = it.rest.is_empty() && successor_key != Some(signing_key);
        is_whole.then(|| Policy {
            document: document.to_string(),
            origin,
            signing_key,
            vrf_key,
            clock,
            proofs_kept,
            records_vouched,
            successor_key,
        })
    }

    /// Takes the value of the line with a name and a space.
    pub(super) fn value(&mut self, name: &str) -> Option<&'a str> {
        let (line, rest) = self.rest.split_once('\n')?;
        let value = line.strip_prefix(name)?;
        self.rest = rest;
        Some(value)
    }

    pub(super) fn line(&mut self, whole: &str) -> Option<()> {
        self.value(whole)?.is_empty().then_some(())
    }

    fn vrf_key(&mut self) -> Option<Option<[u8; 32]>> {
        match self.value("vrf ")? {
            "none" => Some(None),
            "ECVRF-EDWARDS25519-SHA512-TAI" => Some(Some(digits(self.value("vrf-key ")?)?)),
            _ => None,
        }
    }

    fn clock(&mut self) -> Option<Option<EpochClock>> {
        let Some(start) = self.value("epoch-start ") else {
            return Some(None);
        };
        let start = number(start)?;
        let period = NonZeroU64::new(number(self.value("epoch-period ")?)?)?;
        Some(Some(EpochClock { start, period }))
    }

    fn records_vouched(&mut self) -> Option<bool> {
        match self.value("records ") {
            None => Some(false),
            Some(value) => (value == "vouched").then_some(true),
        }
    }

    fn successor_key(&mut self) -> Option<Option<[u8; 32]>> {
        match self.value("successor-key ") {
            None | Some("none") => Some(None),
            Some(value) => Some(Some(digits(value)?)),
        }
    }
}

fn is_origin(text: &str) -> bool {
    (1..=255).contains(&text.len()) && text.bytes().all(|it| it.is_ascii_graphic())
}

/// Returns the bytes of hexadecimal digits in lower case, two for each.
pub(super) fn digits<const N: usize>(text: &str) -> Option<[u8; N]> {
    let mut bytes = [0; N];
    if text.len() != 2 * N {
        return None;
    }
    for (byte, pair) in bytes.iter_mut().zip(text.as_bytes().chunks_exact(2)) {
        *byte = pair.iter().try_fold(0, |value, it| Some(value << 4 | digit(*it)?))?;
    }
    Some(bytes)
}

fn digit(character: u8) -> Option<u8> {
    match character {
        b'0'..=b'9' => Some(character - b'0'),
        b'a'..=b'f' => Some(character - b'a' + 10),
        _ => None,
    }
}

/// Returns the number of decimal digits without leading zeros.
pub(super) fn number(digits: &str) -> Option<u64> {
    let is_plain = digits.bytes().all(|it| it.is_ascii_digit()) && (digits == "0" || !digits.starts_with('0'));
    if is_plain {
        digits.parse().ok()
    } else {
        None
    }
}

#[cfg(test)]
mod tests {
    use super::*;

    #[test]
    fn numbers_have_one_form() {
        assert_eq!(number("18446744073709551615"), Some(u64::MAX));
        assert_eq!((number("0"), number("10")), (Some(0), Some(10)));
        for wrong in ["", "00", "01", "+1", "-0", " 1", "1 ", "1_0", "18446744073709551616", "0x1", "\u{661}"] {
            assert_eq!(number(wrong), None, "{wrong:?}");
        }
    }

    #[test]
    fn an_epoch_begins_at_any_number() {
        let clock = EpochClock { start: u64::MAX, period: NonZeroU64::MAX };
        assert_eq!(clock.begins(u64::MAX), u128::MAX - (1 << 65) + 2);
        assert_eq!(clock.begins(1), u128::from(u64::MAX));
    }
}
