// Generated from formats.toml by scripts/tables.

use crate::Error;

/// Why a client refuses something, by the numbers of `docs/FORMATS.md`. Its display says what to do.
#[derive(Clone, Copy, Debug, PartialEq, Eq, Hash)]
#[non_exhaustive]
#[repr(u32)]
pub enum Cause {
    /// The proof has more than 256 siblings.
    TooDeep = 2,
    /// The name is empty or longer than 255 bytes.
    NameLength = 3,
    /// The proof's key is empty or longer than 16384 bytes.
    KeyLength = 4,
    /// The proof's leaf contains another name.
    WrongName = 5,
    /// The proof's other index is the requested index.
    OtherIsSame = 6,
    /// The proof's other index isn't on the path to the requested index.
    OtherOffPath = 7,
    /// The root computed from the proof isn't the expected root.
    RootMismatch = 8,
    /// There are no bytes.
    NoBytes = 17,
    /// The first byte is not 0, 1 or 2.
    UnknownKind = 18,
    /// The bytes end within the number of siblings.
    CutInCount = 19,
    /// The bytes end within the siblings.
    CutInSiblings = 20,
    /// The bytes end within the other index or its commitment.
    CutInOther = 21,
    /// The bytes end within the opening.
    CutInOpening = 22,
    /// The bytes end within the name or its length.
    CutInName = 23,
    /// The bytes end within the key or its length.
    CutInKey = 24,
    /// Bytes follow the proof.
    BytesFollow = 25,
    /// The version is neither 1 nor 2.
    VersionUnknown = 33,
    /// The version is lower than that of the entry before.
    VersionBack = 34,
    /// The first epoch is 0.
    FirstEpoch = 35,
    /// The epoch isn't later than that of the entry before.
    NotLater = 36,
    /// The previous epoch isn't that of the entry before.
    PreviousEpoch = 37,
    /// The previous link isn't that of the entry before.
    PreviousLink = 38,
    /// The version is 1 and the nonce isn't that of the entry before.
    NonceChanged = 39,
    /// The signature isn't valid for the body, as the caller has verified it.
    Signature = 40,
    /// The entry isn't 209 bytes long.
    EntryLength = 48,
    /// The reply has no byte.
    NoReply = 64,
    /// The reply's first byte is not 1.
    ReplyVersion = 65,
    /// The reply ends before its entry does.
    CutInEntry = 66,
    /// The reply or the history ends within the VRF proof or its length.
    CutInVrf = 67,
    /// The number of a catch-up's bytes is not a multiple of 209.
    CatchUpLength = 68,
    /// The history has no byte.
    NoHistory = 69,
    /// The history's first byte is not 1.
    HistoryVersion = 70,
    /// The history ends within a step.
    CutInStep = 71,
    /// A step's epoch is not greater than the one before.
    EpochOrder = 72,
    /// The kind of a step's end is greater than 3, or 3 in the first step.
    UnknownEnd = 73,
    /// A map has a spare bit, or a sibling is neither sent nor in the step before.
    SiblingMap = 74,
    /// A sibling is sent that equals the one in its place of the step before.
    SiblingRepeated = 75,
    /// An end is sent that equals the one of the step before.
    EndRepeated = 76,
    /// The signed entry has another policy digest than the directory's.
    OtherPolicy = 80,
    /// No chain has the signed entry.
    Malformed = 81,
    /// The signed entry and a stored one are evidence.
    Equivocation = 82,
    /// The chain has no entry at this epoch.
    UnknownEpoch = 83,
    /// The reply's body is not that of the client's entry at the requested epoch.
    OtherEpoch = 84,
    /// The latest epoch began too long ago.
    Stale = 85,
    /// The latest epoch begins too far in the future.
    Future = 86,
    /// The VRF proof is not one of this name.
    VrfProof = 87,
    /// The succession ends another policy.
    SuccessionPolicy = 88,
    /// The signature of the succession is not valid, or the policy has no such key.
    SuccessionSignature = 89,
    /// The succession names another policy to go on.
    NextPolicy = 90,
    /// Another stored entry covers the last epoch.
    ChainDiffers = 91,
    /// The succession names another first entry of the next chain.
    OtherStart = 92,
    /// The state has fewer than 110 bytes.
    StateLength = 96,
    /// The state's first byte is not 3.
    StateVersion = 97,
    /// The state's digest is not that of the bytes before it.
    StateDamaged = 98,
    /// The state's policy digest is not that of the client.
    StatePolicy = 99,
    /// A part of the state has a form that no state has, or bytes follow.
    StateForm = 100,
    /// The entries in the state are no chain of this directory.
    StateChain = 101,
    /// Fewer auditors than a quorum have the entry's head.
    NotVouched = 104,
    /// An auditor has another link for the entry's epoch.
    AuditorsDiffer = 105,
    /// The signing key is no point of prime order.
    SigningKey = 112,
    /// The VRF's key is no point of prime order.
    VrfKey = 113,
    /// The keys are not those of the policy.
    PolicyKeys = 114,
    /// There are more than 64 heads.
    ManyHeads = 142,
}

impl Cause {
    /// All of them, in the order of their numbers.
    pub const ALL: &'static [Cause] = &[
        Cause::TooDeep,
        Cause::NameLength,
        Cause::KeyLength,
        Cause::WrongName,
        Cause::OtherIsSame,
        Cause::OtherOffPath,
        Cause::RootMismatch,
        Cause::NoBytes,
        Cause::UnknownKind,
        Cause::CutInCount,
        Cause::CutInSiblings,
        Cause::CutInOther,
        Cause::CutInOpening,
        Cause::CutInName,
        Cause::CutInKey,
        Cause::BytesFollow,
        Cause::VersionUnknown,
        Cause::VersionBack,
        Cause::FirstEpoch,
        Cause::NotLater,
        Cause::PreviousEpoch,
        Cause::PreviousLink,
        Cause::NonceChanged,
        Cause::Signature,
        Cause::EntryLength,
        Cause::NoReply,
        Cause::ReplyVersion,
        Cause::CutInEntry,
        Cause::CutInVrf,
        Cause::CatchUpLength,
        Cause::NoHistory,
        Cause::HistoryVersion,
        Cause::CutInStep,
        Cause::EpochOrder,
        Cause::UnknownEnd,
        Cause::SiblingMap,
        Cause::SiblingRepeated,
        Cause::EndRepeated,
        Cause::OtherPolicy,
        Cause::Malformed,
        Cause::Equivocation,
        Cause::UnknownEpoch,
        Cause::OtherEpoch,
        Cause::Stale,
        Cause::Future,
        Cause::VrfProof,
        Cause::SuccessionPolicy,
        Cause::SuccessionSignature,
        Cause::NextPolicy,
        Cause::ChainDiffers,
        Cause::OtherStart,
        Cause::StateLength,
        Cause::StateVersion,
        Cause::StateDamaged,
        Cause::StatePolicy,
        Cause::StateForm,
        Cause::StateChain,
        Cause::NotVouched,
        Cause::AuditorsDiffer,
        Cause::SigningKey,
        Cause::VrfKey,
        Cause::PolicyKeys,
        Cause::ManyHeads,
    ];
}

impl Cause {
    /// Returns the library's error of this number, None if the cause is one of the client alone.
    #[must_use]
    pub fn error(self) -> Option<Error> {
        match self {
            Cause::TooDeep => Some(Error::TooDeep),
            Cause::NameLength => Some(Error::NameLength),
            Cause::KeyLength => Some(Error::KeyLength),
            Cause::WrongName => Some(Error::WrongName),
            Cause::OtherIsSame => Some(Error::OtherIsSame),
            Cause::OtherOffPath => Some(Error::OtherOffPath),
            Cause::RootMismatch => Some(Error::RootMismatch),
            Cause::NoBytes => Some(Error::NoBytes),
            Cause::UnknownKind => Some(Error::UnknownKind),
            Cause::CutInCount => Some(Error::CutInCount),
            Cause::CutInSiblings => Some(Error::CutInSiblings),
            Cause::CutInOther => Some(Error::CutInOther),
            Cause::CutInOpening => Some(Error::CutInOpening),
            Cause::CutInName => Some(Error::CutInName),
            Cause::CutInKey => Some(Error::CutInKey),
            Cause::BytesFollow => Some(Error::BytesFollow),
            Cause::VersionUnknown => Some(Error::VersionUnknown),
            Cause::VersionBack => Some(Error::VersionBack),
            Cause::FirstEpoch => Some(Error::FirstEpoch),
            Cause::NotLater => Some(Error::NotLater),
            Cause::PreviousEpoch => Some(Error::PreviousEpoch),
            Cause::PreviousLink => Some(Error::PreviousLink),
            Cause::NonceChanged => Some(Error::NonceChanged),
            Cause::Signature => Some(Error::Signature),
            Cause::EntryLength => Some(Error::EntryLength),
            _ => None,
        }
    }

    /// What is refused, and what to do about it; no text for the library's errors, which have their own.
    pub(super) fn text(self) -> &'static str {
        match self {
            Cause::NoReply => "the reply has no byte: ask for the reply again",
            Cause::ReplyVersion => "the reply has another version than 1: take a later version of this client",
            Cause::CutInEntry => "the reply ends before its entry does: ask for the reply again",
            Cause::CutInVrf => "the bytes end before the VRF proof does: ask for the reply again",
            Cause::CatchUpLength => "a catch-up has 209 bytes for each entry: ask for it again",
            Cause::NoHistory => "the history has no byte: ask for it again",
            Cause::HistoryVersion => "the history has another version than 1: take a later version of this client",
            Cause::CutInStep => "the history ends within a step: ask for it again",
            Cause::EpochOrder => "the epochs of a history must rise: ask another service",
            Cause::UnknownEnd => "a step's kind of end is unknown: ask another service",
            Cause::SiblingMap => "a step's map has a spare bit, or lacks a sibling: ask another service",
            Cause::SiblingRepeated => "a step sends a sibling that stays: ask another service",
            Cause::EndRepeated => "a step sends an end that stays: ask another service",
            Cause::OtherPolicy => "the signed entry has another policy digest than the directory's: keep the evidence, and publish it",
            Cause::Malformed => "no chain has the signed entry: keep the evidence, and publish it",
            Cause::Equivocation => "the signed entry and one of the chain convict the provider: keep the evidence, and publish it",
            Cause::UnknownEpoch => "the chain has no entry at this epoch: feed a catch-up first",
            Cause::OtherEpoch => "the reply is of another epoch than the one that was asked for: feed a catch-up, and ask again",
            Cause::Stale => "the latest epoch is too old by the policy's clock: feed a catch-up, or alarm",
            Cause::Future => "the latest epoch has not begun by the policy's clock: see whether the clock is right, or alarm",
            Cause::VrfProof => "the VRF proof is not one of this name: ask for the reply again",
            Cause::SuccessionPolicy => "the succession ends another policy: take the one of this directory",
            Cause::SuccessionSignature => "the policy's successor key did not sign the succession: ask the directory's operator",
            Cause::NextPolicy => "the succession names another policy to go on: take the policy document that it names",
            Cause::ChainDiffers => "the chain has another entry at the succession's last epoch: keep both, and ask auditors for their entry",
            Cause::OtherStart => "the succession names another first entry of the next chain: take the entry that it names",
            Cause::StateLength => "a state has at least 110 bytes: restore the state that was stored last, or start anew with an auditor's head",
            Cause::StateVersion => "the state has another version than 3: take the client that wrote it, or start anew with an auditor's head",
            Cause::StateDamaged => "the state was changed: restore the state that was stored last, or start anew with an auditor's head",
            Cause::StatePolicy => "the state is that of another directory: take the one of this policy",
            Cause::StateForm => "the state is not one of docs/FORMATS.md: restore the state that was stored last, or start anew with an auditor's head",
            Cause::StateChain => "the entries in the state are no chain of this directory: restore the state that was stored last, or start anew with an auditor's head",
            Cause::NotVouched => "too few auditors have this entry: ask more of them, or take an earlier entry",
            Cause::AuditorsDiffer => "an auditor has another link for this epoch: fetch its entry, and compare",
            Cause::SigningKey => "the signing key is no point of prime order: take the one of the policy document",
            Cause::VrfKey => "the VRF's key is no point of prime order: take the one of the policy document",
            Cause::PolicyKeys => "the keys are not those of the policy: take both from its document",
            Cause::ManyHeads => "at most 64 auditors vouch for an entry",
            _ => "",
        }
    }
}

/// The statuses of a call of the core that its caller must not make.
pub(super) mod misuses {
    pub const NAME: u32 = 130;
    pub const EXPECTED_KEY: u32 = 131;
    pub const OTHER_WATCH: u32 = 132;
    pub const NOT_WATCHING: u32 = 133;
    pub const CHANGE_OPEN: u32 = 134;
    pub const SAME_KEY: u32 = 135;
    pub const NOT_LATER: u32 = 136;
    pub const NO_AUDITOR: u32 = 138;
    pub const NOT_CONFIRMED: u32 = 139;
}

impl From<Error> for Cause {
    fn from(error: Error) -> Self {
        match error {
            Error::TooDeep => Cause::TooDeep,
            Error::NameLength => Cause::NameLength,
            Error::KeyLength => Cause::KeyLength,
            Error::WrongName => Cause::WrongName,
            Error::OtherIsSame => Cause::OtherIsSame,
            Error::OtherOffPath => Cause::OtherOffPath,
            Error::RootMismatch => Cause::RootMismatch,
            Error::NoBytes => Cause::NoBytes,
            Error::UnknownKind => Cause::UnknownKind,
            Error::CutInCount => Cause::CutInCount,
            Error::CutInSiblings => Cause::CutInSiblings,
            Error::CutInOther => Cause::CutInOther,
            Error::CutInOpening => Cause::CutInOpening,
            Error::CutInName => Cause::CutInName,
            Error::CutInKey => Cause::CutInKey,
            Error::BytesFollow => Cause::BytesFollow,
            Error::VersionUnknown => Cause::VersionUnknown,
            Error::VersionBack => Cause::VersionBack,
            Error::FirstEpoch => Cause::FirstEpoch,
            Error::NotLater => Cause::NotLater,
            Error::PreviousEpoch => Cause::PreviousEpoch,
            Error::PreviousLink => Cause::PreviousLink,
            Error::NonceChanged => Cause::NonceChanged,
            Error::Signature => Cause::Signature,
            Error::EntryLength => Cause::EntryLength,
            Error::NoEntry => Cause::UnknownEpoch,
        }
    }
}
