//! Calls whose results follow from `docs/FORMATS.md` and another SHA-256.

use coniks::{check, link, Auditor, Body, Error, Monitor, ENTRY_BYTES};

/// SHA-256 of the byte 45 and 66 zero bytes: the root of an empty tree under a nonce of zeros.
const EMPTY_ROOT: &str = "55fd25353b36d9c01e73d41e753758330f06b9d6a0838d0c60cdeb295cc1c32a";
/// SHA-256 of the byte 53 and 209 zero bytes.
const ZEROS_LINK: &str = "ecc9742501e7f52de4a640c0a9b7d540219a5f764d229a40ee1dd1a50bd184e0";

fn bytes32(text: &str) -> [u8; 32] {
    std::array::from_fn(|i| u8::from_str_radix(&text[2 * i..2 * i + 2], 16).expect("two digits"))
}

const NOTHING: Body =
    Body { version: 0, epoch: 0, previous_epoch: 0, root: [0; 32], previous_link: [0; 32], nonce: [0; 32], policy: [0; 32] };

/// An entry with a signature of zeros.
fn entry(body: &Body) -> Vec<u8> {
    [&body.bytes()[..], &[0; 64]].concat()
}

#[test]
fn check_shows_absence() {
    assert_eq!(check(&[0; 32], &bytes32(EMPTY_ROOT), &[7; 32], b"alice", &[0, 0, 0]), Ok(None));
}

#[test]
fn check_refuses() {
    let refused = |name: &[u8], proof: &[u8]| check(&[0; 32], &bytes32(EMPTY_ROOT), &[7; 32], name, proof).unwrap_err();
    assert_eq!(refused(b"alice", &[]), Error::NoBytes);
    assert_eq!(refused(b"alice", &[3, 0, 0]), Error::UnknownKind);
    assert_eq!(refused(b"alice", &[0, 0, 0, 0]), Error::BytesFollow);
    assert_eq!(refused(b"", &[0, 0, 0]), Error::NameLength);
}

#[test]
fn link_is_a_hash() {
    assert_eq!(link(&[0; ENTRY_BYTES]), Ok(bytes32(ZEROS_LINK)));
    assert_eq!(link(&[0; 208]), Err(Error::EntryLength));
}

#[test]
fn an_auditor_is_unchanged_after_an_error() {
    let mut auditor = Auditor::new();
    assert_eq!(auditor.feed(&[0; ENTRY_BYTES], true), Err(Error::VersionUnknown));
    assert_eq!((auditor.head(), auditor), (None, Auditor::default()));
}

/// With `Copy` a type has both implementations, and the call in the test doesn't compile.
trait NotCopy<Way> {
    fn is_checked() {}
}

struct IfCopy;

impl<T> NotCopy<()> for T {}
impl<T: Copy> NotCopy<IfCopy> for T {}

#[test]
fn a_clone_is_another_auditor() {
    <Auditor as NotCopy<_>>::is_checked();
    <Monitor<'_> as NotCopy<_>>::is_checked();
    let first = entry(&Body { version: 1, epoch: 1, root: [5; 32], ..NOTHING });
    let auditor = Auditor::new();
    let mut other = auditor.clone();
    assert_eq!(other.feed(&first, true), Ok(()));
    assert_eq!((auditor.head(), other.head().map(|it| it.epoch)), (None, Some(1)));
}

#[test]
fn every_error_has_a_text() {
    assert!(Error::ALL.iter().all(|it| !it.to_string().is_empty()));
    assert_eq!(Error::RootMismatch.to_string(), "the root computed from the proof isn't the expected root");
}
