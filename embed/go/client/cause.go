package client

// #include <coniks_core.h>
import "C"

import (
	"errors"
	"fmt"

	"example.org/coniks"
)

// Cause is why a client refuses something, by its number in docs/FORMATS.md: errors.Is(err, client.Stale) reports whether an error
// is a *Refusal of this cause. The causes up to EntryLength have the numbers of coniks.Refused.
type Cause uint8

// String returns the name in docs/FORMATS.md, for example "VrfProof".
func (c Cause) String() string {
	if known, is := causes[c]; is {
		return known.name
	}
	return fmt.Sprintf("Cause(%d)", uint8(c))
}

// Error returns the name too. The error of a call is a *Refusal.
func (c Cause) Error() string { return c.String() }

// Evidence is two signed entries of 209 bytes that convict the owner of the signing key, and why. Mine is one that the client
// kept, or Other itself if no chain has it.
type Evidence struct {
	Mine, Other []byte
	Kind        coniks.EvidenceKind
}

// Refusal is the error of what a client does not accept. The client keeps nothing of it. Status is the number in coniks.h where
// there is one, else 0, and Evidence what convicts the provider, nil if nothing does. errors.Is compares it with a Cause, and with
// the errors of the package coniks.
type Refusal struct {
	Cause    Cause
	Status   coniks.Refused
	Evidence *Evidence
}

func (r *Refusal) Error() string {
	if known := causes[r.Cause]; known.text != "" {
		return known.text
	}
	return coniks.Refused(r.Cause).Error()
}

// Is compares the cause, or the status.
func (r *Refusal) Is(target error) bool {
	switch target := target.(type) {
	case Cause:
		return r.Cause == target
	case coniks.Refused:
		return r.Status != 0 && r.Status == target
	}
	return false
}

// refusal is an error of a cause, with its status where the C library has one.
func refusal(cause Cause) *Refusal {
	if cause < NoReply {
		return &Refusal{Cause: cause, Status: coniks.Refused(cause)}
	}
	return &Refusal{Cause: cause}
}

// refused returns the refusal of a status of the core, nil for success.
func refused(status C.uint32_t) error {
	if status == 0 {
		return nil
	}
	return refusal(Cause(status))
}

var errEmptyKey = errors.New("an expected key has at least one byte: pass nil to expect none")

// misuses are the texts of calls that the caller must not make, by the status of the core.
var misuses = map[C.uint32_t]string{
	otherWatch:  "this client watches another name or key: call Expect, or make another client",
	notWatching: "no name is watched: call Watch first",
	sameKey:     "the new key is the one that is expected already",
	noAuditor:   "the trust document has no such auditor",
	expectedKey: "an expected key has less than 2^32 bytes",
	manyHeads:   "at most 64 auditors vouch for an entry",
}

// misuse returns the error of a call that the caller must not make, nil for the status of success.
func (m *memory) misuse(status C.uint32_t, name string) error {
	switch status {
	case 0:
		return nil
	case nameLength:
		return fmt.Errorf("a name has 1 to %d bytes, not %d", maxName, len(name))
	case changeOpen:
		return fmt.Errorf("another change is expected by epoch %d: expect the next one after it", m.changes()[m.core.changes.count-1].first_new)
	case notLater:
		return fmt.Errorf("epoch %d is in the chain: expect the new key by a later one", m.latestEpoch())
	}
	return errors.New(misuses[status])
}

// nameOf returns the name of a number, or the number if it has none.
func nameOf(names []string, kind string, number uint8) string {
	if int(number) < len(names) && names[number] != "" {
		return names[number]
	}
	return fmt.Sprintf("%s(%d)", kind, number)
}

func (c Comparison) String() string {
	if c < Equal || c > Differs {
		return "invalid"
	}
	return []string{Equal: "equal", Unknown: "unknown", Differs: "differs"}[c]
}

func (w Watched) String() string {
	names := []string{Unwatched: "unwatched", Same: "same", Changed: "changed", Absent: "absent", Missing: "missing"}
	return nameOf(names, "Watched", uint8(w))
}

func (v Verdict) String() string {
	return nameOf([]string{"", "changed", "missing", "lost", "unwatched", "unconfirmed", "good"}, "Verdict", uint8(v))
}
