package client

import (
	"bytes"
	"crypto/ed25519"
	"crypto/sha512"

	"filippo.io/edwards25519"
)

// Lengths in bytes, of Ed25519 (RFC 8032) and of ECVRF-EDWARDS25519-SHA512-TAI (RFC 9381, section 5.5).
const (
	pointBytes     = 32
	challengeBytes = 16
	vrfProofBytes  = 80
)

// suite is the first byte of all that the VRF hashes.
const suite = 3

var (
	identity = edwards25519.NewIdentityPoint()
	zero     = edwards25519.NewScalar()
	minusOne = scalarMinusOne()
)

func scalarMinusOne() *edwards25519.Scalar {
	one, err := edwards25519.NewScalar().SetCanonicalBytes(append([]byte{1}, make([]byte, 31)...))
	if err != nil {
		panic(err)
	}
	return edwards25519.NewScalar().Negate(one)
}

// decodePoint returns the point that 32 bytes encode (RFC 8032, section 5.1.3), nil if they encode none. The package for curves
// accepts numbers that are not reduced, so the point is encoded again.
func decodePoint(text []byte) *edwards25519.Point {
	point, err := edwards25519.NewIdentityPoint().SetBytes(text)
	if err != nil || !bytes.Equal(point.Bytes(), text) {
		return nil
	}
	return point
}

// decodeKey returns the point of prime order that bytes encode, nil if they encode none.
func decodeKey(text []byte) *edwards25519.Point {
	if len(text) != pointBytes {
		return nil
	}
	point := decodePoint(text)
	if point == nil || point.Equal(identity) == 1 {
		return nil
	}
	// The scalar -1 is the number L - 1, for the prime order L. So this is the multiple L of the point.
	multiple := edwards25519.NewIdentityPoint().VarTimeDoubleScalarBaseMult(minusOne, point, zero)
	if multiple.Add(multiple, point).Equal(identity) != 1 {
		return nil
	}
	return point
}

// isSigned reports whether a signature is valid under a key that decodeKey accepts. The package ed25519 compares R byte by byte,
// by the equation without the cofactor, and refuses an S that is not reduced. It accepts the identity as R.
func isSigned(key, message, signature []byte) bool {
	return len(signature) == ed25519.SignatureSize && !bytes.Equal(signature[:pointBytes], identity.Bytes()) &&
		ed25519.Verify(key, message, signature)
}

// vrfOutput returns the output of the VRF for an input, 64 bytes, and whether the proof is valid (RFC 9381, section 5.3). Gamma must
// be a point of prime order. The key is a point of prime order with its encoding.
func vrfOutput(key *edwards25519.Point, public []byte, input string, proof []byte) (output [64]byte, isValid bool) {
	if len(proof) != vrfProofBytes {
		return output, false
	}
	gamma, challenge := decodeKey(proof[:pointBytes]), proof[pointBytes:pointBytes+challengeBytes]
	c, cErr := edwards25519.NewScalar().SetCanonicalBytes(append(append([]byte(nil), challenge...), make([]byte, 16)...))
	s, sErr := edwards25519.NewScalar().SetCanonicalBytes(proof[pointBytes+challengeBytes:])
	point := encodeToCurve(public, input)
	if gamma == nil || cErr != nil || sErr != nil || point == nil {
		return output, false
	}
	c.Negate(c)
	u := edwards25519.NewIdentityPoint().VarTimeDoubleScalarBaseMult(c, key, s)
	v := edwards25519.NewIdentityPoint().VarTimeMultiScalarMult(
		[]*edwards25519.Scalar{s, c}, []*edwards25519.Point{point, gamma})
	if !bytes.Equal(challengeOf(public, point.Bytes(), proof[:pointBytes], u.Bytes(), v.Bytes()), challenge) {
		return output, false
	}
	gamma.MultByCofactor(gamma)
	return hashed(3, gamma.Bytes()), true
}

// encodeToCurve returns the point that a key and an input are hashed to, by try and increment (RFC 9381, section 5.4.1.1). It
// returns nil if no counter gives a point, which nobody can bring about.
func encodeToCurve(public []byte, input string) *edwards25519.Point {
	for counter := 0; counter < 256; counter++ {
		text := hashed(1, public, []byte(input), []byte{byte(counter)})
		if point := decodePoint(text[:pointBytes]); point != nil {
			if point.MultByCofactor(point); point.Equal(identity) != 1 {
				return point
			}
		}
	}
	return nil
}

// challengeOf returns the challenge of five points (RFC 9381, section 5.4.3).
func challengeOf(points ...[]byte) []byte {
	challenge := hashed(2, points...)
	return challenge[:challengeBytes]
}

// hashed returns the hash of what the VRF hashes between the suite with a byte for its use, and a last byte of 0.
func hashed(use byte, parts ...[]byte) [64]byte {
	text := []byte{suite, use}
	for _, part := range parts {
		text = append(text, part...)
	}
	return sha512.Sum512(append(text, 0))
}
