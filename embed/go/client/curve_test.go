package client

import (
	"bytes"
	"crypto/sha512"
	"encoding/hex"
	"fmt"
	"testing"

	"filippo.io/edwards25519"
)

// vectors are those of RFC 9381, appendix B.3, and RFC 8032, section 7.1.
type vectors struct {
	VRF        []struct{ Of, Secret, Public, Input, Proof, Output string }
	Signatures []struct{ Of, Public, Message, Signature string }
}

// Encodings of points of order 1, 2, 4 and 8, some with numbers that are not reduced, and two texts that encode no point.
var notKeys = []string{
	"0100000000000000000000000000000000000000000000000000000000000000",
	"0100000000000000000000000000000000000000000000000000000000000080",
	"ecffffffffffffffffffffffffffffffffffffffffffffffffffffffffffff7f",
	"0000000000000000000000000000000000000000000000000000000000000000",
	"0000000000000000000000000000000000000000000000000000000000000080",
	"c7176a703d4dd84fba3c0b760d10670f2a2053fa2c39ccc64ec7fd7792ac037a",
	"26e8958fc2b227b045c3f489f2ef98f0d5dfac05d3c63339b13802886d53fc05",
	"eeffffffffffffffffffffffffffffffffffffffffffffffffffffffffffff7f",
	"edffffffffffffffffffffffffffffffffffffffffffffffffffffffffffff7f",
	"0200000000000000000000000000000000000000000000000000000000000000",
	"ffffffffffffffffffffffffffffffffffffffffffffffffffffffffffffffff",
}

// order is the order of the base point, RFC 8032, section 5.1.
const order = "edd3f55c1a631258d69cf7a2def9de1400000000000000000000000000000010"

func readVectors(t testing.TB) (it vectors) {
	t.Helper()
	readJSON(t, "testdata/vectors.json", &it)
	if len(it.VRF) != 3 || len(it.Signatures) < 4 {
		t.Fatal("testdata/vectors.json lacks vectors")
	}
	return it
}

// flipped calls with each text that differs in one bit.
func flipped(text []byte, call func(changed []byte)) {
	for bit := 0; bit < 8*len(text); bit++ {
		changed := copied(text)
		changed[bit/8] ^= 1 << (bit % 8)
		call(changed)
	}
}

func TestVectorsOfTheVRF(t *testing.T) {
	for _, it := range readVectors(t).VRF {
		public, input, proof := unhex(t, it.Public), string(unhex(t, it.Input)), unhex(t, it.Proof)
		key := decodeKey(public)
		output, isValid := vrfOutput(key, public, input, proof)
		if !isValid || hex.EncodeToString(output[:]) != it.Output {
			t.Errorf("%s: %x", it.Of, output)
		}
		flipped(proof, func(changed []byte) {
			if output, isValid := vrfOutput(key, public, input, changed); isValid || output != [64]byte{} {
				t.Errorf("%s: accepted %x", it.Of, changed)
			}
		})
		for _, wrong := range [][]byte{nil, proof[:79], append(copied(proof), 0)} {
			if _, isValid := vrfOutput(key, public, input, wrong); isValid {
				t.Errorf("%s: accepted %d bytes", it.Of, len(wrong))
			}
		}
		for _, other := range []string{input + "\x00", "other"} {
			if _, isValid := vrfOutput(key, public, other, proof); isValid {
				t.Errorf("%s: accepted for another input", it.Of)
			}
		}
		if _, isValid := vrfOutput(key, public, input, plusOrder(proof, 48)); isValid {
			t.Errorf("%s: accepted an s that is not reduced", it.Of)
		}
		for _, gamma := range notKeys {
			if _, isValid := vrfOutput(key, public, input, append(unhex(t, gamma), proof[32:]...)); isValid {
				t.Errorf("%s: accepted gamma %s", it.Of, gamma)
			}
		}
	}
}

// plusOrder adds the order of the group to the number at a place.
func plusOrder(text []byte, at int) []byte {
	changed, carry := copied(text), 0
	added, _ := hex.DecodeString(order)
	for k, digit := range added {
		carry += int(changed[at+k]) + int(digit)
		changed[at+k], carry = byte(carry), carry>>8
	}
	return changed
}

// A gamma with a part of order 8 satisfies the equations for some challenges, by their rest modulo 8. It is refused for each.
func TestGammaOfMixedOrder(t *testing.T) {
	it := readVectors(t).VRF[0]
	public, key, x := unhex(t, it.Public), decodeKey(unhex(t, it.Public)), secretScalar(unhex(t, it.Secret))
	torsion, err := edwards25519.NewIdentityPoint().SetBytes(unhex(t, notKeys[5]))
	good(t, err)
	rests := map[byte]bool{}
	for number := 0; number < 1000 && len(rests) < 8; number++ {
		input := fmt.Sprint(number)
		if _, isValid := vrfOutput(key, public, input, proofOf(x, public, input, identity)); !isValid {
			t.Fatal("a proof of prime order is refused")
		}
		proof := proofOf(x, public, input, torsion)
		rests[proof[32]%8] = true
		if _, isValid := vrfOutput(key, public, input, proof); isValid {
			t.Errorf("accepted a gamma of mixed order, with the challenge %x", proof[32:48])
		}
	}
	if len(rests) < 8 {
		t.Error("not all rests were tried")
	}
}

// secretScalar is the scalar of a secret key, RFC 8032, section 5.1.5.
func secretScalar(secret []byte) *edwards25519.Scalar {
	text := sha512.Sum512(secret)
	text[0], text[31] = text[0]&248, text[31]&127|64
	scalar, err := edwards25519.NewScalar().SetUniformBytes(append(text[:32:32], make([]byte, 32)...))
	if err != nil {
		panic(err)
	}
	return scalar
}

// proofOf is a proof of the VRF (RFC 9381, section 5.1), with a point added to gamma. Its nonce is no secret.
func proofOf(x *edwards25519.Scalar, public []byte, input string, added *edwards25519.Point) []byte {
	point := encodeToCurve(public, input)
	gamma := edwards25519.NewIdentityPoint().ScalarMult(x, point)
	gamma.Add(gamma, added)
	k := secretScalar([]byte(input))
	u := edwards25519.NewIdentityPoint().ScalarBaseMult(k)
	v := edwards25519.NewIdentityPoint().ScalarMult(k, point)
	challenge := challengeOf(public, point.Bytes(), gamma.Bytes(), u.Bytes(), v.Bytes())
	c, err := edwards25519.NewScalar().SetCanonicalBytes(append(copied(challenge), make([]byte, 16)...))
	if err != nil {
		panic(err)
	}
	return bytes.Join([][]byte{gamma.Bytes(), challenge, edwards25519.NewScalar().MultiplyAdd(c, x, k).Bytes()}, nil)
}

func TestVectorsOfSignatures(t *testing.T) {
	for _, it := range readVectors(t).Signatures {
		public, message, signature := unhex(t, it.Public), unhex(t, it.Message), unhex(t, it.Signature)
		if decodeKey(public) == nil || !isSigned(public, message, signature) {
			t.Error(it.Of)
		}
		flipped(signature, func(changed []byte) {
			if isSigned(public, message, changed) {
				t.Errorf("%s: accepted %x", it.Of, changed)
			}
		})
		if isSigned(public, message, plusOrder(signature, 32)) || isSigned(public, append(message, 0), signature) {
			t.Errorf("%s: accepted another signature or message", it.Of)
		}
		for _, wrong := range [][]byte{nil, signature[:63], append(copied(signature), 0)} {
			if isSigned(public, message, wrong) {
				t.Errorf("%s: accepted %d bytes", it.Of, len(wrong))
			}
		}
	}
}

// The signer can make a signature whose R is the identity: S is k times the secret scalar.
func TestIdentityAsR(t *testing.T) {
	it := readVectors(t)
	public, message := unhex(t, it.VRF[0].Public), []byte("message")
	signature := identity.Bytes()
	text := sha512.Sum512(bytes.Join([][]byte{signature, public, message}, nil))
	k, err := edwards25519.NewScalar().SetUniformBytes(text[:])
	good(t, err)
	x := secretScalar(unhex(t, it.VRF[0].Secret))
	signature = append(signature, edwards25519.NewScalar().Multiply(k, x).Bytes()...)
	if isSigned(public, message, signature) {
		t.Error("accepted the identity as R")
	}
}

// A point has one encoding: the number y is less than 2^255 - 19, and the sign of x = 0 is 0.
func TestEncodings(t *testing.T) {
	three := append([]byte{3}, make([]byte, 31)...)
	if decodePoint(three) == nil {
		t.Error("there is a point with y = 3")
	}
	for _, it := range []string{
		"f0ffffffffffffffffffffffffffffffffffffffffffffffffffffffffffff7f",
		"f0ffffffffffffffffffffffffffffffffffffffffffffffffffffffffffffff",
		notKeys[1], notKeys[7], notKeys[8],
	} {
		if decodePoint(unhex(t, it)) != nil {
			t.Errorf("%s encodes a point", it)
		}
	}
}

// Keys are points of prime order, by their one encoding.
func TestKeys(t *testing.T) {
	for _, it := range notKeys {
		if decodeKey(unhex(t, it)) != nil {
			t.Errorf("%s is a key", it)
		}
	}
	public := unhex(t, readVectors(t).VRF[0].Public)
	for _, torsion := range notKeys[2:7] {
		added, err := edwards25519.NewIdentityPoint().SetBytes(unhex(t, torsion))
		good(t, err)
		if mixed := added.Add(added, decodeKey(public)).Bytes(); decodeKey(mixed) != nil {
			t.Errorf("%x of mixed order is a key", mixed)
		}
	}
	for _, wrong := range [][]byte{nil, {}, public[:31], append(copied(public), 0)} {
		if decodeKey(wrong) != nil {
			t.Errorf("%d bytes are a key", len(wrong))
		}
	}
}
