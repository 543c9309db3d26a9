//! The calls of libsodium that the client needs, with lengths in their types.
//!
//! Points are encoded as in RFC 8032, section 5.1.2, and scalars have 32 bytes, the least significant first.

use std::sync::OnceLock;

mod c {
    use core::ffi::{c_int, c_ulonglong};

    unsafe extern "C" {
        pub fn sodium_init() -> c_int;
        pub fn crypto_hash_sha256(hash: &mut [u8; 32], text: *const u8, length: c_ulonglong) -> c_int;
        pub fn crypto_hash_sha512(hash: &mut [u8; 64], text: *const u8, length: c_ulonglong) -> c_int;
        pub fn crypto_core_ed25519_is_valid_point(point: &[u8; 32]) -> c_int;
        pub fn crypto_core_ed25519_add(sum: &mut [u8; 32], p: &[u8; 32], q: &[u8; 32]) -> c_int;
        pub fn crypto_core_ed25519_sub(difference: &mut [u8; 32], p: &[u8; 32], q: &[u8; 32]) -> c_int;
        pub fn crypto_scalarmult_ed25519_noclamp(product: &mut [u8; 32], scalar: &[u8; 32], point: &[u8; 32]) -> c_int;
        pub fn crypto_scalarmult_ed25519_base_noclamp(product: &mut [u8; 32], scalar: &[u8; 32]) -> c_int;
        pub fn crypto_sign_ed25519_verify_detached(
            signature: &[u8; 64],
            message: *const u8,
            length: c_ulonglong,
            key: &[u8; 32],
        ) -> c_int;
    }
}

/// Whether libsodium is initialized, which the first call does.
fn is_ready() -> bool {
    static READY: OnceLock<bool> = OnceLock::new();
    // SAFETY: the call takes nothing, and may be made more than once and from several threads.
    *READY.get_or_init(|| unsafe { c::sodium_init() } >= 0)
}

/// Returns SHA-256 of some bytes.
pub fn sha256(text: &[u8]) -> [u8; 32] {
    let mut hash = [0; 32];
    // SAFETY: the slice is there for the call, and the hash is written by it alone. The call always succeeds.
    unsafe { c::crypto_hash_sha256(&mut hash, text.as_ptr(), text.len() as u64) };
    hash
}

/// Returns SHA-512 of some bytes.
pub fn sha512(text: &[u8]) -> [u8; 64] {
    let mut hash = [0; 64];
    // SAFETY: the slice is there for the call, and the hash is written by it alone. The call always succeeds.
    unsafe { c::crypto_hash_sha512(&mut hash, text.as_ptr(), text.len() as u64) };
    hash
}

/// Returns whether 32 bytes are the encoding of a point of prime order. None is if libsodium can't be initialized.
pub fn is_point(point: &[u8; 32]) -> bool {
    // SAFETY: the point is there for the call.
    is_ready() && unsafe { c::crypto_core_ed25519_is_valid_point(point) } == 1
}

/// Returns the sum of two points of the curve, or None if one is no point.
pub fn add(p: &[u8; 32], q: &[u8; 32]) -> Option<[u8; 32]> {
    let mut sum = [0; 32];
    // SAFETY: both points are there for the call, and the sum is written by it alone.
    let status = unsafe { c::crypto_core_ed25519_add(&mut sum, p, q) };
    (status == 0).then_some(sum)
}

/// Returns the difference of two points of the curve, or None if one is no point.
pub fn subtract(p: &[u8; 32], q: &[u8; 32]) -> Option<[u8; 32]> {
    let mut difference = [0; 32];
    // SAFETY: both points are there for the call, and the difference is written by it alone.
    let status = unsafe { c::crypto_core_ed25519_sub(&mut difference, p, q) };
    (status == 0).then_some(difference)
}

/// Returns a multiple of a point, or None for a point that is not of prime order, and for the multiple 0.
pub fn times(scalar: &[u8; 32], point: &[u8; 32]) -> Option<[u8; 32]> {
    let mut product = [0; 32];
    // SAFETY: scalar and point are there for the call, and the product is written by it alone.
    let status = unsafe { c::crypto_scalarmult_ed25519_noclamp(&mut product, scalar, point) };
    (status == 0).then_some(product)
}

/// Returns a multiple of the base point, or None for the multiple 0.
pub fn times_base(scalar: &[u8; 32]) -> Option<[u8; 32]> {
    let mut product = [0; 32];
    // SAFETY: the scalar is there for the call, and the product is written by it alone.
    let status = unsafe { c::crypto_scalarmult_ed25519_base_noclamp(&mut product, scalar) };
    (status == 0).then_some(product)
}

/// Returns whether a signature of a message is valid under a key that [`is_point`] accepts: S is reduced, and R is the encoding
/// of [S]B - [k]A, and of no point of small order.
pub fn is_signed(key: &[u8; 32], message: &[u8], signature: &[u8; 64]) -> bool {
    // SAFETY: the slice, the signature and the key are there for the call.
    unsafe { c::crypto_sign_ed25519_verify_detached(signature, message.as_ptr(), message.len() as u64, key) == 0 }
}

#[cfg(test)]
mod tests {
    use super::*;

    const fn number_of(least: u8) -> [u8; 32] {
        let mut number = [0; 32];
        number[0] = least;
        number
    }

    /// The base point has the number y = 4/5 (RFC 8032, section 5.1). 2 is the number y of no point.
    const BASE: [u8; 32] = {
        let mut point = [0x66; 32];
        point[0] = 0x58;
        point
    };
    const NO_POINT: [u8; 32] = number_of(2);
    const IDENTITY: [u8; 32] = number_of(1);

    #[test]
    fn a_result_of_no_point_is_none() {
        assert_eq!((times_base(&number_of(1)), times(&number_of(1), &BASE)), (Some(BASE), Some(BASE)));
        assert_eq!((times_base(&[0; 32]), times(&[0; 32], &BASE)), (None, None));
        assert_eq!((times(&number_of(1), &NO_POINT), times(&number_of(1), &IDENTITY)), (None, None));
        assert_eq!((add(&BASE, &IDENTITY), subtract(&BASE, &BASE)), (Some(BASE), Some(IDENTITY)));
        assert_eq!((add(&BASE, &NO_POINT), add(&NO_POINT, &BASE)), (None, None));
        assert_eq!((subtract(&BASE, &NO_POINT), subtract(&NO_POINT, &BASE)), (None, None));
        assert!(is_point(&BASE) && !is_point(&NO_POINT) && !is_point(&IDENTITY));
    }
}
