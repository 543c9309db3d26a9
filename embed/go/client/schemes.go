package client

import (
	"errors"

	"example.org/coniks"
	"filippo.io/edwards25519"
)

// SignatureScheme verifies the signatures of one public key, in place of Ed25519. A client is locked while it calls it, so it must
// not call the client.
type SignatureScheme interface {
	// Verify reports whether 64 bytes are a valid signature of a body of 145 bytes.
	Verify(body, signature []byte) bool
}

// IndexScheme verifies where names are stored, in place of the VRF. A client is locked while it calls it, so it must not call the
// client.
type IndexScheme interface {
	// Index returns the index of a name, and true if the proof shows that it is the name's. The index counts only with true. In a
	// directory without a VRF the proof has no byte.
	Index(name string, proof []byte) (index [32]byte, isValid bool)
}

// ed25519Key is a public key that was checked.
type ed25519Key []byte

func (k ed25519Key) Verify(body, signature []byte) bool { return isSigned(k, body, signature) }

// vrfKey is a public key of the VRF that was checked, and its encoding.
type vrfKey struct {
	point  *edwards25519.Point
	public []byte
}

func (k vrfKey) Index(name string, proof []byte) (index [32]byte, isValid bool) {
	output, isValid := vrfOutput(k.point, k.public, name, proof)
	copy(index[:], output[:32])
	return index, isValid
}

// noVRF is a directory without a VRF, whose indices nobody has given.
type noVRF struct{}

func (noVRF) Index(string, []byte) (index [32]byte, isValid bool) { return index, false }

// schemes returns what verifies signatures and indices. The keys must be points of prime order, and those of the policy document.
func (s *Settings) schemes() (SignatureScheme, IndexScheme, error) {
	switch {
	case (s.SigningKey == nil) == (s.Signatures == nil):
		return nil, nil, errors.New("SigningKey and Signatures are both missing or both set: set one of them")
	case s.VRFKey != nil && s.Indices != nil:
		return nil, nil, errors.New("VRFKey and Indices are both set: set one of them")
	}
	signatures, indices := s.Signatures, s.Indices
	if signatures == nil {
		if decodeKey(s.SigningKey) == nil {
			return nil, nil, refusal(SigningKey)
		}
		signatures = ed25519Key(append([]byte(nil), s.SigningKey...))
	}
	if s.VRFKey != nil {
		point := decodeKey(s.VRFKey)
		if point == nil {
			return nil, nil, refusal(VRFKey)
		}
		indices = vrfKey{point, append([]byte(nil), s.VRFKey...)}
	}
	if s.Policy != nil && !s.hasKeysOf(s.Policy) {
		return nil, nil, refusal(PolicyKeys)
	}
	if indices == nil {
		indices = noVRF{}
	}
	return signatures, indices, nil
}

// hasKeysOf reports whether the keys are those of a policy document. A scheme in place of a key is its caller's choice.
func (s *Settings) hasKeysOf(policy *coniks.Policy) bool {
	if s.Signatures == nil && string(s.SigningKey) != string(policy.SigningKey[:]) {
		return false
	}
	if s.Indices != nil {
		return true
	}
	if s.VRFKey == nil || policy.VRFKey == nil {
		return s.VRFKey == nil && policy.VRFKey == nil
	}
	return string(s.VRFKey) == string(policy.VRFKey[:])
}
