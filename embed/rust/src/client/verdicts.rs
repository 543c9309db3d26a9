//! The verdicts on signatures and VRF proofs, which a client passes to the core. Each of them is made here, and nowhere else.
//!
//! The core proves nothing about signatures: an entry or an index that is wrongly taken for valid here is accepted.

use super::schemes::Keys;
use crate::client_core::{Needs, StateNeeds, Verdicts};
use crate::{sodium, BODY_BYTES, ENTRY_BYTES};
use std::vec::Vec;

/// Returns the verdict on an entry's signature. Bytes of another length have none.
pub(super) fn of_entry(keys: &Keys, entry: &[u8]) -> u32 {
    let parts = <&[u8; ENTRY_BYTES]>::try_from(entry).ok().and_then(|it| it.split_first_chunk::<BODY_BYTES>());
    let is_signed = |(body, rest): (_, &[u8])| rest.try_into().is_ok_and(|signature| keys.is_signed(body, signature));
    parts.is_some_and(is_signed).into()
}

/// Returns the verdict on the signature of a succession by the successor key of a policy, if it has one.
pub(super) fn of_succession(key: Option<&[u8; 32]>, lines: &[u8], signature: &[u8; 64]) -> u32 {
    let key = key.filter(|it| sodium::is_point(it));
    key.is_some_and(|it| sodium::is_signed(it, lines, signature)).into()
}

/// Returns the verdict on the signature of each entry of a state.
pub(super) fn of_state(keys: &Keys, state: &[u8], needs: &StateNeeds) -> Vec<u32> {
    let start = |place: usize| needs.entry_start + place * needs.entry_step;
    (0..needs.stored).map(|it| of_entry(keys, part(state, start(it), ENTRY_BYTES))).collect()
}

/// Returns the verdicts on the signature of a reply's entry, if it is needed, and on the VRF proof.
pub(super) fn of_reply(keys: &Keys, name: &[u8], reply: &[u8], needs: &Needs) -> Verdicts {
    let is_needed = needs.signature == 1;
    let signature = if is_needed { of_entry(keys, part(reply, needs.entry_start, ENTRY_BYTES)) } else { 0 };
    Verdicts { signature, ..of_index(keys, name, part(reply, needs.vrf_start, needs.vrf_length)) }
}

/// Returns the verdict on the VRF proof of a name, with the index.
pub(super) fn of_index(keys: &Keys, name: &[u8], proof: &[u8]) -> Verdicts {
    match keys.index(name, proof) {
        Some(at) => Verdicts { signature: 0, index: 1, at },
        None => Verdicts::default(),
    }
}

/// Returns a part of bytes; what is beyond them is left out.
pub(super) fn part(whole: &[u8], start: usize, length: usize) -> &[u8] {
    let rest = whole.get(start..).unwrap_or_default();
    rest.get(..length).unwrap_or(rest)
}
