// Generated from formats.toml by scripts/tables.

/// The bytes of an entry that are signed.
pub const BODY_BYTES: usize = 145;
/// The bytes of an entry: its body and its signature.
pub const ENTRY_BYTES: usize = 209;
/// The most bytes of a name.
pub const MAX_NAME: usize = 255;

// Statuses that are no errors.
pub(crate) const GOOD: u32 = 0;
pub(crate) const ABSENT: u32 = 1;
pub(crate) const CHANGED: u32 = 9;
pub(crate) const NO_EVIDENCE: u32 = 50;

/// Why a proof or an entry is not accepted, by the numbers of `coniks.h`. Its display is the library's text.
#[derive(Clone, Copy, Debug, PartialEq, Eq, Hash)]
#[repr(u32)]
pub enum Error {
    /// The proof has more than 256 siblings.
    TooDeep = 2,
    /// The name is empty or longer than 255 bytes.
    NameLength = 3,
    /// The proof's key is empty or longer than 16384 bytes.
    KeyLength = 4,
    /// The proof's leaf contains another name.
    WrongName = 5,
    /// The proof's other index is the requested index.
    OtherIsSame = 6,
    /// The proof's other index isn't on the path to the requested index.
    OtherOffPath = 7,
    /// The root computed from the proof isn't the expected root.
    RootMismatch = 8,
    /// There are no bytes.
    NoBytes = 17,
    /// The first byte is not 0, 1 or 2.
    UnknownKind = 18,
    /// The bytes end within the number of siblings.
    CutInCount = 19,
    /// The bytes end within the siblings.
    CutInSiblings = 20,
    /// The bytes end within the other index or its commitment.
    CutInOther = 21,
    /// The bytes end within the opening.
    CutInOpening = 22,
    /// The bytes end within the name or its length.
    CutInName = 23,
    /// The bytes end within the key or its length.
    CutInKey = 24,
    /// Bytes follow the proof.
    BytesFollow = 25,
    /// The version is neither 1 nor 2.
    VersionUnknown = 33,
    /// The version is lower than that of the entry before.
    VersionBack = 34,
    /// The first epoch is 0.
    FirstEpoch = 35,
    /// The epoch isn't later than that of the entry before.
    NotLater = 36,
    /// The previous epoch isn't that of the entry before.
    PreviousEpoch = 37,
    /// The previous link isn't that of the entry before.
    PreviousLink = 38,
    /// The version is 1 and the nonce isn't that of the entry before.
    NonceChanged = 39,
    /// The signature isn't valid for the body, as the caller has verified it.
    Signature = 40,
    /// The entry isn't 209 bytes long.
    EntryLength = 48,
    /// No entry was accepted yet.
    NoEntry = 49,
}

impl Error {
    /// All of them, in the order of their numbers.
    pub const ALL: &'static [Error] = &[
        Error::TooDeep,
        Error::NameLength,
        Error::KeyLength,
        Error::WrongName,
        Error::OtherIsSame,
        Error::OtherOffPath,
        Error::RootMismatch,
        Error::NoBytes,
        Error::UnknownKind,
        Error::CutInCount,
        Error::CutInSiblings,
        Error::CutInOther,
        Error::CutInOpening,
        Error::CutInName,
        Error::CutInKey,
        Error::BytesFollow,
        Error::VersionUnknown,
        Error::VersionBack,
        Error::FirstEpoch,
        Error::NotLater,
        Error::PreviousEpoch,
        Error::PreviousLink,
        Error::NonceChanged,
        Error::Signature,
        Error::EntryLength,
        Error::NoEntry,
    ];
}
