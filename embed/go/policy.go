package coniks

import (
	"bytes"
	"crypto/sha256"
	"encoding/hex"
	"errors"
	"fmt"
	"regexp"
	"strconv"
	"time"
)

// ErrNoClock is the error of EpochAt for a policy without a clock.
var ErrNoClock = errors.New("the policy has no clock, so no epoch belongs to a time")

// Policy is what a directory promises for its life. Its text is the policy document, whose SHA-256 is the policy digest of each
// body. docs/FORMATS.md defines the text.
type Policy struct {
	// Origin names the directory, by 1 to 255 printable ASCII characters without space.
	Origin string
	// SigningKey is the public key of its signatures (Ed25519).
	SigningKey [32]byte
	// VRFKey is the public key of its VRF (ECVRF-EDWARDS25519-SHA512-TAI), nil without a VRF.
	VRFKey *[32]byte
	// EpochStart is when epoch 1 begins, in Unix seconds, and EpochPeriod how many seconds each epoch lasts. Both are 0 in a
	// directory without a clock.
	EpochStart, EpochPeriod uint64
	// ProofsKept is for how many seconds proofs are kept, for ever if it is nil.
	ProofsKept *uint64
	// RecordsVouched is whether the directory promises that each key is a record of its owner (docs/FORMATS.md, "Keys that their
	// owners vouch for"). Two replies that show a change which the owner did not sign convict it then.
	RecordsVouched bool
	// SuccessorKey is the public key that signs a succession (Ed25519), which is kept offline, nil if there is none. With
	// NoSuccessorKey the document says that there is none, else it says nothing.
	SuccessorKey   *[32]byte
	NoSuccessorKey bool
}

var (
	policyText = regexp.MustCompile(`^policy coniks-1
origin ([!-~]{1,255})
signature Ed25519
signing-key ([0-9a-f]{64})
vrf (?:none|ECVRF-EDWARDS25519-SHA512-TAI
vrf-key ([0-9a-f]{64}))
(?:epoch-start (0|[1-9][0-9]{0,19})
epoch-period ([1-9][0-9]{0,19})
)?evidence one-chain
(records vouched
)?(?:successor-key (none|[0-9a-f]{64})
)?proofs-kept (?:forever|(0|[1-9][0-9]{0,19}))
$`)
	policyOrigin = regexp.MustCompile(`^[!-~]{1,255}$`)
)

// ReadPolicy returns the policy of a document. It returns an error for any other bytes, so that a policy has one document.
func ReadPolicy(text []byte) (it Policy, err error) {
	err = it.UnmarshalText(text)
	return it, err
}

// UnmarshalText reads a document, as ReadPolicy does.
func (p *Policy) UnmarshalText(text []byte) error {
	found := policyText.FindSubmatch(text)
	if found == nil {
		return errors.New("this is no policy document of docs/FORMATS.md: take the bytes that its directory publishes")
	}
	read := Policy{Origin: string(found[1])}
	hex.Decode(read.SigningKey[:], found[2])
	if found[3] != nil {
		read.VRFKey = new([32]byte)
		hex.Decode(read.VRFKey[:], found[3])
	}
	var start, period, stored uint64
	for at, number := range map[int]*uint64{4: &start, 5: &period, 8: &stored} {
		if digits := found[at]; digits != nil {
			var err error
			if *number, err = strconv.ParseUint(string(digits), 10, 64); err != nil {
				return fmt.Errorf("a number in the policy document is above 2^64 - 1: take the bytes that its directory publishes")
			}
		}
	}
	read.EpochStart, read.EpochPeriod = start, period
	if found[8] != nil {
		read.ProofsKept = &stored
	}
	read.RecordsVouched = found[6] != nil
	read.readSuccessor(string(found[7]))
	if err := read.checkSuccessor(); err != nil {
		return err
	}
	*p = read
	return nil
}

// readSuccessor takes the value of the line of the successor key, of no byte without the line.
func (p *Policy) readSuccessor(value string) {
	p.NoSuccessorKey = value == "none"
	if len(value) == 2*len(p.SigningKey) {
		p.SuccessorKey = new([32]byte)
		hex.Decode(p.SuccessorKey[:], []byte(value))
	}
}

// checkSuccessor returns an error if no document can have this successor key.
func (p *Policy) checkSuccessor() error {
	switch {
	case p.SuccessorKey == nil:
		return nil
	case p.NoSuccessorKey:
		return errors.New("there is a successor key, and none: set SuccessorKey or NoSuccessorKey")
	case *p.SuccessorKey == p.SigningKey:
		return errors.New("the successor key is kept offline: it is another one than the signing key")
	}
	return nil
}

// MarshalText returns the document, which clients and auditors get. It returns an error if the policy has none: the origin has
// other characters, or there is a start of epoch 1 without a period.
func (p Policy) MarshalText() ([]byte, error) {
	if !policyOrigin.MatchString(p.Origin) {
		return nil, errors.New("the origin has 1 to 255 printable ASCII characters without space: set Origin")
	}
	if p.EpochPeriod == 0 && p.EpochStart != 0 {
		return nil, errors.New("a clock has a start and a period: set EpochPeriod, or neither")
	}
	if err := p.checkSuccessor(); err != nil {
		return nil, err
	}
	var text bytes.Buffer
	fmt.Fprintf(&text, "policy coniks-1\norigin %s\nsignature Ed25519\nsigning-key %x\n", p.Origin, p.SigningKey)
	if p.VRFKey == nil {
		text.WriteString("vrf none\n")
	} else {
		fmt.Fprintf(&text, "vrf ECVRF-EDWARDS25519-SHA512-TAI\nvrf-key %x\n", *p.VRFKey)
	}
	if p.EpochPeriod > 0 {
		fmt.Fprintf(&text, "epoch-start %d\nepoch-period %d\n", p.EpochStart, p.EpochPeriod)
	}
	text.WriteString("evidence one-chain\n")
	if p.RecordsVouched {
		text.WriteString("records vouched\n")
	}
	switch {
	case p.SuccessorKey != nil:
		fmt.Fprintf(&text, "successor-key %x\n", *p.SuccessorKey)
	case p.NoSuccessorKey:
		text.WriteString("successor-key none\n")
	}
	if p.ProofsKept == nil {
		text.WriteString("proofs-kept forever\n")
	} else {
		fmt.Fprintf(&text, "proofs-kept %d\n", *p.ProofsKept)
	}
	return text.Bytes(), nil
}

// Digest returns the policy digest. It returns an error if the policy has no document.
func (p Policy) Digest() ([32]byte, error) {
	text, err := p.MarshalText()
	return sha256.Sum256(text), err
}

// EpochAt returns the number of the epoch at a time. It returns ErrNoClock if the policy has no clock, and another error before
// epoch 1.
func (p Policy) EpochAt(at time.Time) (uint64, error) {
	if p.EpochPeriod == 0 {
		return 0, ErrNoClock
	}
	seconds := at.Unix()
	if seconds < 0 || uint64(seconds) < p.EpochStart {
		return 0, fmt.Errorf("epoch 1 begins at %d Unix seconds: check the clock", p.EpochStart)
	}
	return 1 + (uint64(seconds)-p.EpochStart)/p.EpochPeriod, nil
}
