//! Verifies proofs of ECVRF-EDWARDS25519-SHA512-TAI (RFC 9381, section 5.5).

use crate::sodium::{add, sha512, subtract, times, times_base};
use std::vec::Vec;

const SUITE: u8 = 3;
const IDENTITY: [u8; 32] = number_of(1);
/// 2^255 - 19, the prime of the field.
const PRIME: [u8; 32] = {
    let mut prime = [0xff; 32];
    prime[0] = 0xed;
    prime[31] = 0x7f;
    prime
};
/// 2^252 + 27742317777372353535851937790883648493, the order of the group.
const ORDER: [u8; 32] = [
    0xed, 0xd3, 0xf5, 0x5c, 0x1a, 0x63, 0x12, 0x58, 0xd6, 0x9c, 0xf7, 0xa2, 0xde, 0xf9, 0xde, 0x14, 0, 0, 0, 0, 0, 0, 0, 0, 0,
    0, 0, 0, 0, 0, 0, 0x10,
];

const fn number_of(least: u8) -> [u8; 32] {
    let mut number = [0; 32];
    number[0] = least;
    number
}

/// Whether a number is less than another one; both have their least significant byte first.
fn is_less(number: &[u8; 32], limit: &[u8; 32]) -> bool {
    number.iter().rev().lt(limit.iter().rev())
}

fn times_cofactor(point: &[u8; 32]) -> Option<[u8; 32]> {
    let double = add(point, point)?;
    let fourfold = add(&double, &double)?;
    add(&fourfold, &fourfold)
}

/// Returns eight times the point that 32 bytes encode (RFC 8032, section 5.1.3), or None if they encode none, or if this is the
/// identity.
fn hashed_point(text: &[u8; 32]) -> Option<[u8; 32]> {
    let mut y = *text;
    y[31] &= 0x7f;
    if !is_less(&y, &PRIME) {
        return None;
    }
    times_cofactor(text).filter(|it| *it != IDENTITY)
}

/// Returns SHA-512 of a text between the suite and a zero byte, with the number of what is hashed.
fn hash(what: u8, parts: &[&[u8]]) -> [u8; 64] {
    let text: Vec<u8> = [&[SUITE, what][..], &parts.concat(), &[0]].concat();
    sha512(&text)
}

/// Returns the first bytes of a hash.
fn first<const N: usize>(hash: &[u8; 64]) -> Option<[u8; N]> {
    hash.first_chunk().copied()
}

/// Returns the point that a key and an input are hashed to, by try and increment (section 5.4.1.1).
fn encode_to_curve(key: &[u8; 32], input: &[u8]) -> Option<[u8; 32]> {
    (0..=u8::MAX).find_map(|counter| hashed_point(&first(&hash(1, &[key, input, &[counter]]))?))
}

/// Returns the output for an input, 64 bytes, if the proof is valid for it and for a key of prime order (section 5.3). None if
/// it is not, also if Gamma is not of prime order, or if s is not less than the order.
pub(super) fn verify(key: &[u8; 32], input: &[u8], proof: &[u8]) -> Option<[u8; 64]> {
    let (gamma, rest) = proof.split_first_chunk::<32>()?;
    let (challenge, rest) = rest.split_first_chunk::<16>()?;
    let s: &[u8; 32] = rest.try_into().ok()?;
    if !is_less(s, &ORDER) {
        return None;
    }
    let mut c = [0; 32];
    c[..16].copy_from_slice(challenge);
    let point = encode_to_curve(key, input)?;
    let u = subtract(&times_base(s)?, &times(&c, key)?)?;
    let v = subtract(&times(s, &point)?, &times(&c, gamma)?)?;
    let computed: [u8; 16] = first(&hash(2, &[key, &point, gamma, &u, &v]))?;
    if computed != *challenge {
        return None;
    }
    Some(hash(3, &[&times_cofactor(gamma)?]))
}

#[cfg(test)]
mod tests {
    use super::*;
    use std::vec::Vec;

    fn bytes(text: &str) -> Vec<u8> {
        (0..text.len() / 2).map(|i| u8::from_str_radix(&text[2 * i..2 * i + 2], 16).expect("two digits")).collect()
    }

    fn bytes32(text: &str) -> [u8; 32] {
        bytes(text).try_into().expect("32 bytes")
    }

    /// RFC 9381, appendix B.3, examples 16 to 18: public key, input, proof and output.
    const EXAMPLES: [[&str; 4]; 3] = [
        [
            "d75a980182b10ab7d54bfed3c964073a0ee172f3daa62325af021a68f707511a",
            "",
            "8657106690b5526245a92b003bb079ccd1a92130477671f6fc01ad16f26f723f26f8a57ccaed74ee1b190bed1f479d9727d2d0f9b005a6e456a35d4fb0daab1268a1b0db10836d9826a528ca76567805",
            "90cf1df3b703cce59e2a35b925d411164068269d7b2d29f3301c03dd757876ff66b71dda49d2de59d03450451af026798e8f81cd2e333de5cdf4f3e140fdd8ae",
        ],
        [
            "3d4017c3e843895a92b70aa74d1b7ebc9c982ccf2ec4968cc0cd55f12af4660c",
            "72",
            "f3141cd382dc42909d19ec5110469e4feae18300e94f304590abdced48aed5933bf0864a62558b3ed7f2fea45c92a465301b3bbf5e3e54ddf2d935be3b67926da3ef39226bbc355bdc9850112c8f4b02",
            "eb4440665d3891d668e7e0fcaf587f1b4bd7fbfe99d0eb2211ccec90496310eb5e33821bc613efb94db5e5b54c70a848a0bef4553a41befc57663b56373a5031",
        ],
        [
            "fc51cd8e6218a1a38da47ed00230f0580816ed13ba3303ac5deb911548908025",
            "af82",
            "9bc0f79119cc5604bf02d23b4caede71393cedfbb191434dd016d30177ccbf8096bb474e53895c362d8628ee9f9ea3c0e52c7a5c691b6c18c9979866568add7a2d41b00b05081ed0f58ee5e31b3a970e",
            "645427e5d00c62a23fb703732fa5d892940935942101e456ecca7bb217c61c452118fec1219202a0edcf038bb6373241578be7217ba85a2687f7a0310b2df19f",
        ],
    ];

    #[test]
    fn the_examples_of_the_rfc() {
        for [key, input, proof, output] in EXAMPLES {
            let (key, input, proof) = (bytes32(key), bytes(input), bytes(proof));
            assert_eq!(verify(&key, &input, &proof).map(Vec::from), Some(bytes(output)));
            assert_eq!(verify(&key, &[&input[..], b"\0"].concat(), &proof), None);
        }
    }

    #[test]
    fn each_bit_of_a_proof_counts() {
        let [key, input, proof, _] = EXAMPLES[1];
        let (key, input, proof) = (bytes32(key), bytes(input), bytes(proof));
        for bit in 0..8 * proof.len() {
            let mut other = proof.clone();
            other[bit / 8] ^= 1 << (bit % 8);
            assert_eq!(verify(&key, &input, &other), None, "bit {bit}");
        }
    }

    #[test]
    fn only_80_bytes_are_a_proof() {
        let [key, input, proof, _] = EXAMPLES[1];
        let (key, input, proof) = (bytes32(key), bytes(input), bytes(proof));
        for size in 0..proof.len() {
            assert_eq!(verify(&key, &input, &proof[..size]), None, "{size} bytes");
        }
        assert_eq!(verify(&key, &input, &[&proof[..], &[0]].concat()), None);
        assert_eq!(verify(&key, &input, &[0; 65_535]), None);
    }

    /// Proofs for the second example by the owner of its key, who took another nonce. The first is valid. The others have the first,
    /// the eighth or the last byte of the challenge changed, and an s that leads to the same points. By the second program in Python.
    const CHALLENGES: [&str; 4] = [
        "f3141cd382dc42909d19ec5110469e4feae18300e94f304590abdced48aed59301e81b6b6d37a3547e05b21ee8a6aafbb405d4b871941ffce7b345aefd64314a3051965c20bcc5b2e16756266da40002",
        "f3141cd382dc42909d19ec5110469e4feae18300e94f304590abdced48aed59300e81b6b6d37a3547e05b21ee8a6aafbed6b02b29c01a68b021ba6578c5112a8b1e42a21a139a954bccd31763e54d200",
        "f3141cd382dc42909d19ec5110469e4feae18300e94f304590abdced48aed59301e81b6b6d37a3557e05b21ee8a6aafbba54fb94f04c8748fdb0b6af8c88a345bd80da89da5066314ed391a5efc05e07",
        "f3141cd382dc42909d19ec5110469e4feae18300e94f304590abdced48aed59301e81b6b6d37a3547e05b21ee8a6aafadc140abf2a9f3e83296550c6b9ec7b14a653fb58d30954be543812f9b20f6003",
    ];

    #[test]
    fn each_byte_of_the_challenge_is_compared() {
        let [key, input, _, output] = EXAMPLES[1];
        let outputs = CHALLENGES.map(|proof| verify(&bytes32(key), &bytes(input), &bytes(proof)).map(Vec::from));
        assert_eq!(outputs, [Some(bytes(output)), None, None, None]);
    }

    /// s + order, which the equations take as s.
    #[test]
    fn s_is_less_than_the_order() {
        let [key, input, proof, _] = EXAMPLES[1];
        let (key, input, mut proof) = (bytes32(key), bytes(input), bytes(proof));
        let mut carry = 0;
        for (digit, more) in proof[48..].iter_mut().zip(ORDER) {
            let sum = u16::from(*digit) + u16::from(more) + carry;
            (*digit, carry) = (sum as u8, sum >> 8);
        }
        assert_eq!(verify(&key, &input, &proof), None);
    }

    /// Points of small order as the key and as Gamma, with every challenge and number 0.
    #[test]
    fn points_of_small_order() {
        let [key, input, proof, _] = EXAMPLES[1];
        let (key, input, proof) = (bytes32(key), bytes(input), bytes(proof));
        for point in [IDENTITY, [0; 32], number_of(0x80), PRIME, {
            let mut it = PRIME;
            it[0] -= 1;
            it
        }] {
            assert_eq!(verify(&point, &input, &proof), None);
            assert_eq!(verify(&key, &input, &[&point[..], &proof[32..]].concat()), None);
            assert_eq!(verify(&key, &input, &[&point[..], &[0; 48]].concat()), None);
            assert_eq!(verify(&point, &input, &[&point[..], &[0; 48]].concat()), None);
        }
    }

    /// The number y = 3 of a point, and eight times that point by the second program in Python.
    const POINT: (u8, &str) = (3, "804b91162dc636168b05aa12f2b5ff897a28fcceefba1a0cb45a150705696515");

    #[test]
    fn a_hash_is_a_point_if_it_encodes_one() {
        let (y, eightfold) = POINT;
        assert_eq!(hashed_point(&number_of(y)), Some(bytes32(eightfold)));
        let mut not_reduced = PRIME;
        not_reduced[0] += y;
        assert_eq!(hashed_point(&not_reduced), None);
        let mut order_of_two = PRIME;
        order_of_two[0] -= 1;
        for text in [PRIME, IDENTITY, order_of_two, number_of(2), [0; 32], [0xff; 32]] {
            assert_eq!(hashed_point(&text), None);
        }
    }

    #[test]
    fn numbers_are_compared() {
        assert!(is_less(&number_of(1), &number_of(2)));
        assert!(!is_less(&ORDER, &ORDER));
        assert!(is_less(&ORDER, &PRIME) && !is_less(&PRIME, &ORDER));
    }
}
