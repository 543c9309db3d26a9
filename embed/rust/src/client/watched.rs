//! What a client returns of the watched name, and what it needs of its auditors.

use super::cause::Misuse;
use crate::client_core as core_calls;

/// What an epoch shows of the watched name.
#[derive(Clone, Copy, Debug, PartialEq, Eq, Hash)]
pub enum Watched {
    /// The expected key, or none if none is expected.
    Same,
    /// Another key, or a key though none is expected.
    Changed,
    /// No key, though one is expected.
    Absent,
    /// No reply was accepted for the epoch.
    Missing,
}

impl Watched {
    /// Returns what was seen at an epoch by its number in a state, None if it is not watched.
    pub(super) fn of(number: u32) -> Option<Self> {
        match number {
            1 => Some(Self::Same),
            3 => Some(Self::Changed),
            4 => Some(Self::Absent),
            5 => Some(Self::Missing),
            _ => None,
        }
    }
}

/// What a client needs of a trust document: which auditors confirm epochs.
#[derive(Clone, Copy, Debug, PartialEq, Eq)]
pub struct Trust {
    pub(super) digest: [u8; 32],
    pub(super) auditors: usize,
    pub(super) quorum: usize,
}

impl Trust {
    /// No auditor, and no quorum.
    pub(super) const NONE: Self = Self { digest: [0; 32], auditors: 0, quorum: 0 };

    /// Returns the trust in a document with this SHA-256, which names this number of auditors, of which at most `faulty` lie or are silent.
    ///
    /// # Errors
    ///
    /// [`Misuse::TooManyFaulty`] if three times `faulty` are not fewer than the auditors.
    pub fn new(digest: [u8; 32], auditors: u32, faulty: u32) -> Result<Self, Misuse> {
        let (auditors, faulty) = (auditors as usize, faulty as usize);
        match core_calls::quorum(auditors, faulty) {
            0 => Err(Misuse::TooManyFaulty),
            quorum => Ok(Self { digest, auditors, quorum }),
        }
    }
}

/// A dropped epoch of the watched name that was not seen as the same: [`Watched::Missing`] if it was lost.
#[derive(Clone, Copy, Debug, PartialEq, Eq)]
pub struct Alarm {
    /// The epoch.
    pub epoch: u64,
    /// What was seen of it.
    pub seen: Watched,
}

/// What a client reports of the watched name: the first of these that applies, with its epoch or its first and last one.
#[derive(Clone, Copy, Debug, PartialEq, Eq)]
#[must_use = "the key may have changed"]
pub enum Report {
    /// The epoch shows another key, or no key.
    Changed(u64),
    /// The stored epoch is missing, and not lost.
    Missing(u64),
    /// The epoch is lost.
    Lost(u64),
    /// No stored epoch is watched.
    Unwatched,
    /// Each epoch shows the expected key, but no quorum confirms the latest one.
    Unconfirmed(u64, u64),
    /// Each epoch shows the expected key, and a quorum confirms all of them.
    Good(u64, u64),
}

impl Report {
    pub(super) fn of(raw: &core_calls::Report) -> Self {
        match raw.verdict {
            1 => Self::Changed(raw.from),
            2 => Self::Missing(raw.from),
            3 => Self::Lost(raw.from),
            5 => Self::Unconfirmed(raw.from, raw.to),
            6 => Self::Good(raw.from, raw.to),
            _ => Self::Unwatched,
        }
    }
}
