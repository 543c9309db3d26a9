//! The client's side of a CONIKS key directory: a checker of proofs, an auditor of a chain and a monitor of names.
//!
//! It calls the proved C library and decides nothing itself. It verifies no signatures: verify each one and pass the result.
//! The types ensure the preconditions of `coniks.h`: no pointer is null, and nothing is written while it is read.
//!
//! With the feature `client` the module `client` has all steps of a lookup, signatures and VRF proofs among them, over the calls of
//! `coniks_core.h`. It needs `std` and libsodium.
#![no_std]
#![warn(missing_docs)]

#[cfg(feature = "client")]
extern crate std;

#[cfg(feature = "client")]
pub mod client;
#[cfg(feature = "client")]
mod client_core;
mod formats;
#[cfg(feature = "client")]
mod sodium;

use core::fmt;
use formats::{ABSENT, CHANGED, GOOD, NO_EVIDENCE};

pub use formats::{Error, BODY_BYTES, ENTRY_BYTES, MAX_NAME};

/// The bytes of an auditor's state.
pub const STATE_BYTES: usize = 80;

mod c {
    #[repr(C)]
    #[derive(Clone, Copy, Debug, PartialEq, Eq)]
    pub struct State {
        pub epoch: u64,
        pub link: [u8; 32],
        pub nonce: [u8; 32],
        pub version: u8,
        pub unused: [u8; 7],
    }

    #[repr(C)]
    pub struct Body {
        pub epoch: u64,
        pub previous_epoch: u64,
        pub root: [u8; 32],
        pub previous_link: [u8; 32],
        pub nonce: [u8; 32],
        pub policy: [u8; 32],
        pub version: u8,
        pub unused: [u8; 7],
    }

    unsafe extern "C" {
        pub fn coniks_check(
            nonce: &[u8; 32],
            root: &[u8; 32],
            index: &[u8; 32],
            name: *const u8,
            name_length: usize,
            proof: *const u8,
            proof_length: usize,
            key_start: &mut usize,
            key_length: &mut usize,
        ) -> u32;
        pub fn coniks_auditor_begin(state: &mut State);
        pub fn coniks_auditor_feed(state: &mut State, entry: *const u8, entry_length: usize, verdict: u32) -> u32;
        pub fn coniks_auditor_head(state: &State, epoch: &mut u64, link: &mut [u8; 32]) -> u32;
        pub fn coniks_monitor_step(
            state: &mut State,
            index: &[u8; 32],
            name: *const u8,
            name_length: usize,
            expected: *const u8,
            expected_length: usize,
            entry: *const u8,
            entry_length: usize,
            verdict: u32,
            proof: *const u8,
            proof_length: usize,
        ) -> u32;
        pub fn coniks_entry_body(entry: *const u8, entry_length: usize, body: &mut Body) -> u32;
        pub fn coniks_body_bytes(body: &Body, bytes: &mut [u8; 145]);
        pub fn coniks_link(entry: *const u8, entry_length: usize, link: &mut [u8; 32]) -> u32;
        pub fn coniks_convicts(a: *const u8, a_length: usize, b: *const u8, b_length: usize, kind: &mut u32) -> u32;
        pub fn coniks_text(status: u32, text: *mut u8, room: usize) -> usize;
        pub fn coniks_version() -> u32;
    }
}

impl Error {
    fn of(status: u32) -> Self {
        let found = Self::ALL.iter().find(|it| **it as u32 == status);
        *found.unwrap_or_else(|| unreachable!("status {status} of coniks.h"))
    }
}

impl fmt::Display for Error {
    fn fmt(&self, f: &mut fmt::Formatter<'_>) -> fmt::Result {
        f.write_str(text(*self as u32, &mut [0; 128]))
    }
}

impl core::error::Error for Error {}

fn accepted(status: u32) -> Result<(), Error> {
    if status == GOOD {
        Ok(())
    } else {
        Err(Error::of(status))
    }
}

/// Writes the text of an error's status in `coniks.h`, and returns it: the empty text for other numbers.
#[must_use]
pub fn text(status: u32, room: &mut [u8; 128]) -> &str {
    // SAFETY: the bytes are there, and nothing else reads them meanwhile.
    let size = unsafe { c::coniks_text(status, room.as_mut_ptr(), room.len()) };
    core::str::from_utf8(&room[..size.min(room.len())]).unwrap_or_default()
}

/// Returns the version of the library: major, minor and patch.
#[must_use]
pub fn version() -> [u32; 3] {
    // SAFETY: the call takes nothing.
    let number = unsafe { c::coniks_version() };
    [number / 10000, number / 100 % 100, number % 100]
}

/// Returns the key that a proof shows for a name at its index, under a root and a nonce, and None if it shows that the name
/// is bound to no key. The key is a part of the proof.
///
/// # Errors
///
/// The proof isn't accepted.
pub fn check<'a>(
    nonce: &[u8; 32],
    root: &[u8; 32],
    index: &[u8; 32],
    name: &[u8],
    proof: &'a [u8],
) -> Result<Option<&'a [u8]>, Error> {
    let (mut start, mut length) = (0, 0);
    // SAFETY: the slices are there for the call, and the two numbers are written by it alone.
    let status = unsafe {
        c::coniks_check(nonce, root, index, name.as_ptr(), name.len(), proof.as_ptr(), proof.len(), &mut start, &mut length)
    };
    match status {
        GOOD => Ok(Some(&proof[start..start + length])),
        ABSENT => Ok(None),
        other => Err(Error::of(other)),
    }
}

/// The last entry accepted: its epoch and its link.
#[derive(Clone, Copy, Debug, PartialEq, Eq)]
pub struct Head {
    /// From 1 on.
    pub epoch: u64,
    /// The next entry contains it.
    pub link: [u8; 32],
}

/// Follows a chain of entries. It can be cloned and compared; a clone goes on by itself.
#[derive(Clone, Debug, PartialEq, Eq)]
pub struct Auditor(c::State);

impl Default for Auditor {
    fn default() -> Self {
        Self::new()
    }
}

impl Auditor {
    /// Returns an auditor that has seen no entry.
    #[must_use]
    pub fn new() -> Self {
        let mut it = Self::resume([0; STATE_BYTES]);
        // SAFETY: the state is written by the call alone.
        unsafe { c::coniks_auditor_begin(&mut it.0) };
        it
    }

    /// Returns an auditor that goes on from the state of another one.
    #[must_use]
    pub fn resume(state: [u8; STATE_BYTES]) -> Self {
        // SAFETY: the sizes are equal, and any bytes are a state.
        let state = unsafe { core::mem::transmute::<[u8; STATE_BYTES], c::State>(state) };
        Self(c::State { unused: [0; 7], ..state })
    }

    /// Returns all that the auditor keeps, in this machine's byte order.
    #[must_use]
    pub fn state(&self) -> [u8; STATE_BYTES] {
        // SAFETY: the sizes are equal, and a state has no padding.
        unsafe { core::mem::transmute::<c::State, [u8; STATE_BYTES]>(self.0) }
    }

    /// Accepts an entry that follows the last one.
    ///
    /// # Errors
    ///
    /// The entry doesn't follow, or its signature isn't good. The auditor is unchanged.
    pub fn feed(&mut self, entry: &[u8], signature_is_good: bool) -> Result<(), Error> {
        // SAFETY: the slice is there for the call, and the state is written by it alone.
        accepted(unsafe { c::coniks_auditor_feed(&mut self.0, entry.as_ptr(), entry.len(), signature_is_good.into()) })
    }

    /// Returns the head of the last entry accepted, None before the first.
    #[must_use]
    pub fn head(&self) -> Option<Head> {
        let mut head = Head { epoch: 0, link: [0; 32] };
        // SAFETY: the two places are written by the call alone.
        let status = unsafe { c::coniks_auditor_head(&self.0, &mut head.epoch, &mut head.link) };
        (status == GOOD).then_some(head)
    }
}

/// What an accepted proof shows, compared with what the client expects.
#[derive(Clone, Copy, Debug, PartialEq, Eq)]
#[must_use = "the key may be absent or changed"]
pub enum Seen {
    /// What is expected.
    Same,
    /// No key, though one is expected.
    Absent,
    /// Another key than the expected one, or one though none is expected.
    Changed,
}

/// Watches one name over a chain, for a client that expects a key of it, or none.
#[derive(Clone, Debug, PartialEq, Eq)]
pub struct Monitor<'a> {
    /// The client's name.
    pub name: &'a [u8],
    /// The index of the name, which the caller computes or verifies.
    pub index: [u8; 32],
    /// The key that is expected; no bytes if none is.
    pub expected: &'a [u8],
    /// Follows the chain.
    pub auditor: Auditor,
}

impl Monitor<'_> {
    /// Returns what the proof shows at the entry's epoch.
    ///
    /// # Errors
    ///
    /// The entry or the proof isn't accepted. The monitor is unchanged.
    pub fn step(&mut self, entry: &[u8], signature_is_good: bool, proof: &[u8]) -> Result<Seen, Error> {
        let (name, expected) = (self.name, self.expected);
        // SAFETY: the slices are there for the call, and the state is written by it alone.
        let status = unsafe {
            c::coniks_monitor_step(
                &mut self.auditor.0,
                &self.index,
                name.as_ptr(),
                name.len(),
                expected.as_ptr(),
                expected.len(),
                entry.as_ptr(),
                entry.len(),
                signature_is_good.into(),
                proof.as_ptr(),
                proof.len(),
            )
        };
        match status {
            GOOD => Ok(Seen::Same),
            ABSENT => Ok(Seen::Absent),
            CHANGED => Ok(Seen::Changed),
            other => Err(Error::of(other)),
        }
    }
}

/// Returns the link of an entry, which the next entry contains.
///
/// # Errors
///
/// [`Error::EntryLength`].
pub fn link(entry: &[u8]) -> Result<[u8; 32], Error> {
    let mut link = [0; 32];
    // SAFETY: the slice is there for the call, and the link is written by it alone.
    accepted(unsafe { c::coniks_link(entry.as_ptr(), entry.len(), &mut link) })?;
    Ok(link)
}

/// Why two entries, signed with one key, are evidence that its owner equivocated, by the numbers of `coniks.h`.
#[derive(Clone, Copy, Debug, PartialEq, Eq, Hash)]
#[repr(u32)]
pub enum EvidenceKind {
    /// The bodies differ, and their intervals (previous epoch, epoch] overlap.
    Overlap = 1,
    /// The policy digests differ.
    OtherPolicy = 2,
    /// One of the entries is in no chain.
    Malformed = 3,
}

/// Returns why two entries are evidence that the owner of a signing key equivocated, or `None` if they are none.
///
/// Verify both signatures with that key first.
///
/// # Errors
///
/// [`Error::EntryLength`].
pub fn convicts(a: &[u8], b: &[u8]) -> Result<Option<EvidenceKind>, Error> {
    let mut kind = 0;
    // SAFETY: the slices are there for the call, and the kind is written by it alone.
    let status = unsafe { c::coniks_convicts(a.as_ptr(), a.len(), b.as_ptr(), b.len(), &mut kind) };
    if status == NO_EVIDENCE {
        return Ok(None);
    }
    accepted(status)?;
    Ok(EvidenceKind::of(kind))
}

impl EvidenceKind {
    /// Returns the kind of a number, None of 0.
    fn of(kind: u32) -> Option<Self> {
        match kind {
            0 => None,
            1 => Some(Self::Overlap),
            2 => Some(Self::OtherPolicy),
            3 => Some(Self::Malformed),
            other => unreachable!("kind {other} of coniks.h"),
        }
    }
}

/// An entry without its signature.
#[derive(Clone, Copy, Debug, PartialEq, Eq)]
pub struct Body {
    /// 1 or 2.
    pub version: u8,
    /// From 1 on.
    pub epoch: u64,
    /// 0 for the first entry.
    pub previous_epoch: u64,
    /// The root of the tree at this epoch.
    pub root: [u8; 32],
    /// 32 zero bytes for the first entry.
    pub previous_link: [u8; 32],
    /// Under which the tree is hashed.
    pub nonce: [u8; 32],
    /// The digest of the directory's policy.
    pub policy: [u8; 32],
}

impl Body {
    /// Reads the body of an entry and verifies nothing.
    ///
    /// # Errors
    ///
    /// [`Error::EntryLength`].
    pub fn of_entry(entry: &[u8]) -> Result<Self, Error> {
        let none = Self {
            version: 0,
            epoch: 0,
            previous_epoch: 0,
            root: [0; 32],
            previous_link: [0; 32],
            nonce: [0; 32],
            policy: [0; 32],
        };
        let mut it = none.in_c();
        // SAFETY: the slice is there for the call, and the body is written by it alone.
        accepted(unsafe { c::coniks_entry_body(entry.as_ptr(), entry.len(), &mut it) })?;
        let c::Body { epoch, previous_epoch, root, previous_link, nonce, policy, version, unused: _ } = it;
        Ok(Self { version, epoch, previous_epoch, root, previous_link, nonce, policy })
    }

    /// Returns the bytes that are signed.
    #[must_use]
    pub fn bytes(&self) -> [u8; BODY_BYTES] {
        let mut bytes = [0; BODY_BYTES];
        // SAFETY: the bytes are written by the call alone.
        unsafe { c::coniks_body_bytes(&self.in_c(), &mut bytes) };
        bytes
    }

    fn in_c(&self) -> c::Body {
        let Self { version, epoch, previous_epoch, root, previous_link, nonce, policy } = *self;
        c::Body { epoch, previous_epoch, root, previous_link, nonce, policy, version, unused: [0; 7] }
    }
}
