//! What verifies signatures and VRF proofs: a public key over libsodium, or a scheme of the caller.

use super::cause::Refusal;
use super::causes::Cause;
use super::ecvrf;
use super::policy::Policy;
use crate::{sodium, BODY_BYTES};
use core::fmt;
use std::boxed::Box;

/// A signature scheme with its public key.
pub trait SignatureScheme: Send + Sync {
    /// Returns whether 64 bytes are a valid signature of a body.
    #[must_use]
    fn verify(&self, body: &[u8; BODY_BYTES], signature: &[u8; 64]) -> bool;
}

/// Where names are stored.
pub trait IndexScheme: Send + Sync {
    /// Returns the index of a name if the proof is one of this name, and None if it is not. A directory without a VRF has the
    /// proof of no byte.
    #[must_use]
    fn index(&self, name: &[u8], proof: &[u8]) -> Option<[u8; 32]>;
}

/// Verifies signatures of one public key by Ed25519 (RFC 8032), without the cofactor.
#[derive(Clone, Debug, PartialEq, Eq)]
pub struct Ed25519 {
    key: [u8; 32],
}

impl Ed25519 {
    /// Returns what verifies the signatures of a public key of 32 bytes.
    ///
    /// # Errors
    ///
    /// [`Cause::SigningKey`] if it is not the encoding of a point of prime order.
    pub fn new(key: &[u8]) -> Result<Self, Refusal> {
        Ok(Self { key: point(key).ok_or(Cause::SigningKey)? })
    }
}

impl SignatureScheme for Ed25519 {
    fn verify(&self, body: &[u8; BODY_BYTES], signature: &[u8; 64]) -> bool {
        sodium::is_signed(&self.key, body, signature)
    }
}

/// Verifies proofs of one public key by ECVRF-EDWARDS25519-SHA512-TAI (RFC 9381). The index of a name is the first 32 bytes of
/// the output.
#[derive(Clone, Debug, PartialEq, Eq)]
pub struct Ecvrf {
    key: [u8; 32],
}

impl Ecvrf {
    /// Returns what verifies the proofs of a public key of 32 bytes.
    ///
    /// # Errors
    ///
    /// [`Cause::VrfKey`] if it is not the encoding of a point of prime order.
    pub fn new(key: &[u8]) -> Result<Self, Refusal> {
        Ok(Self { key: point(key).ok_or(Cause::VrfKey)? })
    }
}

impl IndexScheme for Ecvrf {
    fn index(&self, name: &[u8], proof: &[u8]) -> Option<[u8; 32]> {
        ecvrf::verify(&self.key, name, proof)?.first_chunk().copied()
    }
}

fn point(key: &[u8]) -> Option<[u8; 32]> {
    key.try_into().ok().filter(sodium::is_point)
}

/// What verifies the signatures of a directory.
pub enum SigningKey {
    /// An Ed25519 key, which must be the one of the policy document.
    Ed25519(Ed25519),
    /// Another scheme, whose key is the caller's choice.
    Scheme(Box<dyn SignatureScheme>),
}

/// What verifies where a directory stores names.
pub enum VrfKey {
    /// A key of ECVRF-EDWARDS25519-SHA512-TAI, which must be the one of the policy document.
    Ecvrf(Ecvrf),
    /// The directory has no VRF. Nothing can be looked up.
    None,
    /// Another scheme, whose key is the caller's choice.
    Scheme(Box<dyn IndexScheme>),
}

/// The public keys of a directory, which it publishes.
#[derive(Debug)]
pub struct Keys {
    /// Of its signatures.
    pub signing: SigningKey,
    /// Of its VRF.
    pub vrf: VrfKey,
}

impl Keys {
    /// Returns the public keys of a directory, 32 bytes each: for Ed25519, and for ECVRF-EDWARDS25519-SHA512-TAI, None without
    /// a VRF.
    ///
    /// # Errors
    ///
    /// [`Cause::SigningKey`], then [`Cause::VrfKey`].
    pub fn new(signing_key: &[u8], vrf_key: Option<&[u8]>) -> Result<Self, Refusal> {
        let signing = SigningKey::Ed25519(Ed25519::new(signing_key)?);
        let vrf = match vrf_key {
            Some(key) => VrfKey::Ecvrf(Ecvrf::new(key)?),
            None => VrfKey::None,
        };
        Ok(Self { signing, vrf })
    }

    pub(super) fn is_signed(&self, body: &[u8; BODY_BYTES], signature: &[u8; 64]) -> bool {
        match &self.signing {
            SigningKey::Ed25519(it) => it.verify(body, signature),
            SigningKey::Scheme(it) => it.verify(body, signature),
        }
    }

    pub(super) fn index(&self, name: &[u8], proof: &[u8]) -> Option<[u8; 32]> {
        match &self.vrf {
            VrfKey::Ecvrf(it) => it.index(name, proof),
            VrfKey::None => None,
            VrfKey::Scheme(it) => it.index(name, proof),
        }
    }

    /// Checks that keys are those of a policy document. A scheme in place of a key is its caller's choice.
    pub(super) fn check(&self, policy: &Policy) -> Result<(), Cause> {
        let is_signing = match &self.signing {
            SigningKey::Ed25519(it) => it.key == *policy.signing_key(),
            SigningKey::Scheme(_) => true,
        };
        let is_vrf = match &self.vrf {
            VrfKey::Ecvrf(it) => Some(&it.key) == policy.vrf_key(),
            VrfKey::None => policy.vrf_key().is_none(),
            VrfKey::Scheme(_) => true,
        };
        if is_signing && is_vrf {
            Ok(())
        } else {
            Err(Cause::PolicyKeys)
        }
    }
}

impl fmt::Debug for SigningKey {
    fn fmt(&self, f: &mut fmt::Formatter<'_>) -> fmt::Result {
        match self {
            Self::Ed25519(it) => it.fmt(f),
            Self::Scheme(_) => f.write_str("SignatureScheme"),
        }
    }
}

impl fmt::Debug for VrfKey {
    fn fmt(&self, f: &mut fmt::Formatter<'_>) -> fmt::Result {
        match self {
            Self::Ecvrf(it) => it.fmt(f),
            Self::None => f.write_str("None"),
            Self::Scheme(_) => f.write_str("IndexScheme"),
        }
    }
}

#[cfg(test)]
mod tests {
    use super::*;
    use std::vec::Vec;

    fn bytes(text: &str) -> Vec<u8> {
        (0..text.len() / 2).map(|i| u8::from_str_radix(&text[2 * i..2 * i + 2], 16).expect("two digits")).collect()
    }

    /// RFC 8032, section 7.1, tests 1 to 3 and SHA(abc): public key, message and signature.
    const SIGNED: [[&str; 3]; 4] = [
        [
            "d75a980182b10ab7d54bfed3c964073a0ee172f3daa62325af021a68f707511a",
            "",
            "e5564300c360ac729086e2cc806e828a84877f1eb8e5d974d873e065224901555fb8821590a33bacc61e39701cf9b46bd25bf5f0595bbe24655141438e7a100b",
        ],
        [
            "3d4017c3e843895a92b70aa74d1b7ebc9c982ccf2ec4968cc0cd55f12af4660c",
            "72",
            "92a009a9f0d4cab8720e820b5f642540a2b27b5416503f8fb3762223ebdb69da085ac1e43e15996e458f3613d0f11d8c387b2eaeb4302aeeb00d291612bb0c00",
        ],
        [
            "fc51cd8e6218a1a38da47ed00230f0580816ed13ba3303ac5deb911548908025",
            "af82",
            "6291d657deec24024827e69c3abe01a30ce548a284743a445e3680d7db5ac3ac18ff9b538d16f290ae67f760984dc6594a7c15e9716ed28dc027beceea1ec40a",
        ],
        [
            "ec172b93ad5e563bf4932c70e1245034c35467ef2efd4d64ebf819683467e2bf",
            "ddaf35a193617abacc417349ae20413112e6fa4e89a97ea20a9eeee64b55d39a2192992a274fc1a836ba3c23a3feebbd454d4423643ce80e2a9ac94fa54ca49f",
            "dc2a4459e7369633a52b1bf277839a00201009a3efbf3ecb69bea2186c26b58909351fc9ac90b3ecfdfbc7c66431e0303dca179c138ac17ad9bef1177331a704",
        ],
    ];

    #[test]
    fn the_signatures_of_the_rfc() {
        for [key, message, signature] in SIGNED {
            let (key, message) = (point(&bytes(key)).expect("a key"), bytes(message));
            let signature: [u8; 64] = bytes(signature).try_into().expect("64 bytes");
            assert!(sodium::is_signed(&key, &message, &signature));
            assert!(!sodium::is_signed(&key, &[&message[..], b"\0"].concat(), &signature));
            for bit in 0..512 {
                let mut other = signature;
                other[bit / 8] ^= 1 << (bit % 8);
                assert!(!sodium::is_signed(&key, &message, &other), "bit {bit}");
            }
        }
    }

    #[test]
    fn a_key_is_a_point_of_prime_order() {
        // Points of order 1, 2, 4 and 8, one that is not reduced, one that is none, and one of mixed order: the key of the first
        // test plus the point of order 2.
        for wrong in [
            "0100000000000000000000000000000000000000000000000000000000000000",
            "ecffffffffffffffffffffffffffffffffffffffffffffffffffffffffffff7f",
            "0000000000000000000000000000000000000000000000000000000000000000",
            "26e8958fc2b227b045c3f489f2ef98f0d5dfac05d3c63339b13802886d53fc05",
            "eeffffffffffffffffffffffffffffffffffffffffffffffffffffffffffff7f",
            "0200000000000000000000000000000000000000000000000000000000000000",
            "16a567fe7d4ef5482ab4012c369bf8c5f11e8d0c2559dcda50fde59708f8aee5",
        ] {
            assert_eq!(Ed25519::new(&bytes(wrong)).unwrap_err().cause, Cause::SigningKey, "{wrong}");
            assert_eq!(Ecvrf::new(&bytes(wrong)).unwrap_err().cause, Cause::VrfKey, "{wrong}");
        }
        let key = bytes(SIGNED[0][0]);
        for wrong in [&key[..31], &[&key[..], &[0]].concat(), &[]] {
            assert_eq!(Ed25519::new(wrong).unwrap_err().cause, Cause::SigningKey);
            assert_eq!(Ecvrf::new(wrong).unwrap_err().cause, Cause::VrfKey);
        }
        assert!(Ed25519::new(&key).is_ok() && Ecvrf::new(&key).is_ok());
    }
}
