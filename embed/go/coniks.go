// Package coniks is the client's side of a CONIKS key directory: it checks proofs, audits a chain of signed entries and
// monitors names.
//
// It calls the proved C library and decides nothing itself. It verifies no signatures: verify each one and pass the result, or
// use the module example.org/coniks/client, which takes all steps of a lookup. Build the library first with embed/build.
package coniks

/*
#cgo CFLAGS: -I${SRCDIR}/../../include
#cgo LDFLAGS: ${SRCDIR}/../out/libconiks.a
#include <coniks.h>
*/
import "C"

import (
	"fmt"
	"unsafe"
)

// Sizes in bytes.
const (
	BodyBytes  = C.CONIKS_BODY_BYTES
	EntryBytes = C.CONIKS_ENTRY_BYTES
	StateBytes = C.sizeof_coniks_auditor
)

// Refused is the error of a proof or an entry that isn't accepted, by its number in coniks.h. Its values are the constants
// Err..., which errors.Is compares.
type Refused uint32

func (r Refused) Error() string {
	if text := Text(uint32(r)); text != "" {
		return text
	}
	return fmt.Sprintf("status %d", uint32(r))
}

// Text returns the text of an error's status in coniks.h, and the empty text for other numbers.
func Text(status uint32) string {
	var text [128]byte
	size := int(C.coniks_text(C.uint32_t(status), start(text[:]), C.size_t(len(text))))
	if size > len(text) {
		size = len(text)
	}
	return string(text[:size])
}

// Version returns the version of the library.
func Version() string {
	number := uint32(C.coniks_version())
	return fmt.Sprintf("%d.%d.%d", number/10000, number/100%100, number%100)
}

// start is a pointer to the first byte, nil for no bytes.
func start(bytes []byte) *C.uint8_t {
	if len(bytes) == 0 {
		return nil
	}
	return (*C.uint8_t)(unsafe.Pointer(&bytes[0]))
}

func size(bytes []byte) C.size_t {
	return C.size_t(len(bytes))
}

func bytes32(bytes *[32]byte) *C.coniks_bytes32 {
	return (*C.coniks_bytes32)(unsafe.Pointer(bytes))
}

func verdict(signatureIsGood bool) C.uint32_t {
	if signatureIsGood {
		return 1
	}
	return 0
}

func refused(status C.uint32_t) error {
	if status == C.CONIKS_GOOD {
		return nil
	}
	return Refused(status)
}

// Check returns the key that a proof shows for a name at its index, under a root and a nonce, and nil if it shows that the
// name is bound to no key. The key is a part of the proof's slice.
func Check(nonce, root, index [32]byte, name string, proof []byte) ([]byte, error) {
	var at, length C.size_t
	requested := []byte(name)
	status := C.coniks_check(bytes32(&nonce), bytes32(&root), bytes32(&index), start(requested), size(requested), start(proof),
		size(proof), &at, &length)
	switch status {
	case C.CONIKS_GOOD:
		return proof[at : at+length : at+length], nil
	case C.CONIKS_ABSENT:
		return nil, nil
	}
	return nil, Refused(status)
}

// Auditor follows a chain of entries. Its zero value has seen no entry. It can be copied and compared.
type Auditor struct{ state C.coniks_auditor }

// Resume returns an auditor that goes on from the state of another one.
func Resume(state [StateBytes]byte) (it Auditor) {
	it.state = *(*C.coniks_auditor)(unsafe.Pointer(&state))
	it.state.unused = [7]C.uint8_t{}
	return it
}

// State returns all that the auditor keeps, in this machine's byte order.
func (a *Auditor) State() [StateBytes]byte {
	return *(*[StateBytes]byte)(unsafe.Pointer(&a.state))
}

// Reset makes it an auditor that has seen no entry.
func (a *Auditor) Reset() {
	C.coniks_auditor_begin(&a.state)
}

// Feed accepts an entry that follows the last one. After an error the auditor is unchanged.
func (a *Auditor) Feed(entry []byte, signatureIsGood bool) error {
	return refused(C.coniks_auditor_feed(&a.state, start(entry), size(entry), verdict(signatureIsGood)))
}

// Head is the number of an epoch and the link of its entry, as Auditor.Head returns them.
type Head struct {
	Epoch uint64
	Link  [32]byte
}

// Head returns the epoch and the link of the last entry accepted, and ErrNoEntry before the first.
func (a *Auditor) Head() (epoch uint64, link [32]byte, err error) {
	var number C.uint64_t
	err = refused(C.coniks_auditor_head(&a.state, &number, bytes32(&link)))
	return uint64(number), link, err
}

// Seen is what an accepted proof shows, compared with what the client expects. Its zero value is invalid: Step returns it with an
// error.
type Seen uint32

const (
	Same    Seen = iota + 1 // what is expected
	Absent                  // no key, though one is expected
	Changed                 // another key than the expected one, or one though none is expected
)

func (s Seen) String() string {
	switch s {
	case 0:
		return "invalid"
	case Same:
		return "same"
	case Absent:
		return "absent"
	case Changed:
		return "changed"
	}
	return fmt.Sprintf("Seen(%d)", uint32(s))
}

// Monitor watches one name over a chain, for a client that expects a key, or none if Expected has no bytes. Its auditor
// follows the chain.
type Monitor struct {
	Name     string
	Index    [32]byte
	Expected []byte
	Auditor  Auditor
}

// Step returns what the proof shows at the entry's epoch. With an error it returns 0, which is invalid, and the monitor is
// unchanged.
func (m *Monitor) Step(entry []byte, signatureIsGood bool, proof []byte) (Seen, error) {
	name := []byte(m.Name)
	status := C.coniks_monitor_step(&m.Auditor.state, bytes32(&m.Index), start(name), size(name), start(m.Expected),
		size(m.Expected), start(entry), size(entry), verdict(signatureIsGood), start(proof), size(proof))
	switch status {
	case C.CONIKS_GOOD:
		return Same, nil
	case C.CONIKS_ABSENT:
		return Absent, nil
	case C.CONIKS_CHANGED:
		return Changed, nil
	}
	return 0, Refused(status)
}

// Link returns the link of an entry, which the next entry contains.
func Link(entry []byte) (link [32]byte, err error) {
	err = refused(C.coniks_link(start(entry), size(entry), bytes32(&link)))
	return link, err
}

// EvidenceKind is why two entries, signed with one key, are evidence that its owner equivocated.
type EvidenceKind uint32

const (
	// NoEvidence means that the entries are no evidence.
	NoEvidence EvidenceKind = 0
	// Overlap means that the bodies differ, and that their intervals (previous epoch, epoch] overlap.
	Overlap EvidenceKind = C.CONIKS_OVERLAP
	// OtherPolicy means that the policy digests differ.
	OtherPolicy EvidenceKind = C.CONIKS_OTHER_POLICY
	// Malformed means that one of the entries is in no chain.
	Malformed EvidenceKind = C.CONIKS_MALFORMED
)

// Convicts returns why two entries are evidence that the owner of a signing key equivocated. Verify both signatures with that key
// first. The error is ErrEntryLength.
func Convicts(a, b []byte) (EvidenceKind, error) {
	var kind C.uint32_t
	status := C.coniks_convicts(start(a), size(a), start(b), size(b), &kind)
	if status == C.CONIKS_NO_EVIDENCE {
		return NoEvidence, nil
	}
	return EvidenceKind(kind), refused(status)
}

// Body is an entry without its signature.
type Body struct {
	Version       uint8
	Epoch         uint64
	PreviousEpoch uint64
	Root          [32]byte
	PreviousLink  [32]byte
	Nonce         [32]byte
	Policy        [32]byte
}

// BodyOf reads the body of an entry and verifies nothing.
func BodyOf(entry []byte) (Body, error) {
	var it C.coniks_body
	if err := refused(C.coniks_entry_body(start(entry), size(entry), &it)); err != nil {
		return Body{}, err
	}
	return Body{
		uint8(it.version), uint64(it.epoch), uint64(it.previous_epoch),
		array(&it.root), array(&it.previous_link), array(&it.nonce), array(&it.policy),
	}, nil
}

// Bytes returns the bytes that are signed.
func (b Body) Bytes() [BodyBytes]byte {
	var out C.coniks_bytes145
	body := C.coniks_body{
		epoch: C.uint64_t(b.Epoch), previous_epoch: C.uint64_t(b.PreviousEpoch), version: C.uint8_t(b.Version),
		root: *bytes32(&b.Root), previous_link: *bytes32(&b.PreviousLink), nonce: *bytes32(&b.Nonce), policy: *bytes32(&b.Policy),
	}
	C.coniks_body_bytes(&body, &out)
	return *(*[BodyBytes]byte)(unsafe.Pointer(&out))
}

func array(bytes *C.coniks_bytes32) [32]byte {
	return *(*[32]byte)(unsafe.Pointer(bytes))
}
