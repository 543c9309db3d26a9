//! Why a client refuses something, what its caller must not do, and what convicts a provider.

use super::causes::{misuses, Cause};
use crate::{Error, EvidenceKind, ENTRY_BYTES};
use core::fmt;
use std::boxed::Box;

impl Cause {
    /// Returns the cause of a status that is not 0. Since there is room for all that the core writes, it returns no other status than
    /// those of the causes.
    pub(super) fn of(status: u32) -> Self {
        Self::ALL.iter().copied().find(|it| *it as u32 == status).unwrap_or(Cause::UnknownEpoch)
    }
}

impl fmt::Display for Cause {
    fn fmt(&self, f: &mut fmt::Formatter<'_>) -> fmt::Result {
        match self.error() {
            Some(error) => error.fmt(f),
            None => f.write_str(self.text()),
        }
    }
}

/// The number that a client in C has for it: the core is not asked.
const TOO_MANY_FAULTY: u32 = 144;

macro_rules! misuses {
    ($($(#[$doc:meta])* $name:ident = $number:path: $text:literal;)*) => {
        /// A call that the client's caller must not make. The client is unchanged.
        #[derive(Clone, Copy, Debug, PartialEq, Eq, Hash)]
        #[non_exhaustive]
        pub enum Misuse {
            $($(#[$doc])* $name,)*
        }

        impl Misuse {
            /// Returns the misuse of a status of the core, which has no other ones for such a call.
            pub(super) fn of(status: u32) -> Result<(), Self> {
                match status {
                    0 => Ok(()),
                    $($number => Err(Self::$name),)*
                    _ => Err(Self::NoAuditor),
                }
            }
        }

        impl fmt::Display for Misuse {
            fn fmt(&self, f: &mut fmt::Formatter<'_>) -> fmt::Result {
                f.write_str(match self {
                    $(Self::$name => $text,)*
                })
            }
        }
    };
}

misuses! {
    /// The name has no byte, or more than 255.
    NameLength = misuses::NAME: "a name has 1 to 255 bytes";
    /// The expected key has no byte, or 2^32 or more.
    KeyLength = misuses::EXPECTED_KEY: "an expected key has at least one byte, and less than 2^32; None expects none";
    /// The client watches another name, another key, or from another epoch on.
    OtherWatch = misuses::OTHER_WATCH: "this client watches another name or key: use `expect`, or make another client";
    /// The client watches no name.
    NotWatching = misuses::NOT_WATCHING: "no name is watched: call `watch` first";
    /// Another change of the key is not over.
    ChangeOpen = misuses::CHANGE_OPEN: "another change is expected: expect the next one after it is over";
    /// The new key is the one that is expected already.
    SameKey = misuses::SAME_KEY: "the new key is the one that is expected already";
    /// The epoch by which the new key is expected is not after the latest one.
    NotLater = misuses::NOT_LATER: "this epoch is in the chain: expect the new key by a later one";
    /// The trust document has no such auditor.
    NoAuditor = misuses::NO_AUDITOR: "the trust document has no such auditor";
    /// Three times the auditors that may be faulty are not fewer than all.
    TooManyFaulty = TOO_MANY_FAULTY: "more than three auditors are needed for each one that may be faulty";
}

impl core::error::Error for Misuse {}

/// Two signed entries that convict the owner of the signing key. Publish both.
#[derive(Clone, Debug, PartialEq, Eq)]
pub struct Evidence {
    /// An entry that the client keeps, or `other` itself if that is in no chain.
    pub mine: [u8; ENTRY_BYTES],
    /// The entry that was given to the client.
    pub other: [u8; ENTRY_BYTES],
    /// Why they convict.
    pub kind: EvidenceKind,
}

/// A client refuses what it was given, and keeps nothing of it.
#[derive(Clone, Debug, PartialEq, Eq)]
#[non_exhaustive]
pub struct Refusal {
    /// Why.
    pub cause: Cause,
    /// The library's error, if there is one: that of the cause, or why an entry that convicts does not follow.
    pub status: Option<Error>,
    /// What convicts the provider, if something does.
    pub evidence: Option<Box<Evidence>>,
}

impl Refusal {
    pub(super) fn with(cause: Cause, status: Option<Error>, evidence: Option<Evidence>) -> Self {
        Self { cause, status: cause.error().or(status), evidence: evidence.map(Box::new) }
    }
}

impl From<Cause> for Refusal {
    fn from(cause: Cause) -> Self {
        Self::with(cause, None, None)
    }
}

impl From<Error> for Refusal {
    fn from(error: Error) -> Self {
        Cause::from(error).into()
    }
}

impl fmt::Display for Refusal {
    fn fmt(&self, f: &mut fmt::Formatter<'_>) -> fmt::Result {
        self.cause.fmt(f)
    }
}

impl core::error::Error for Refusal {}
