// Package client is a client of a key directory that can't forget a step: it verifies signatures, the chain, VRF proofs,
// authentication paths and the requested epoch.
//
//	it, err := client.New(client.Settings{SigningKey: key, VRFKey: vrfKey, Policy: &policy}) // what the directory publishes
//	_, err = it.FeedCatchUp(catchUp)                                                         // all entries since the last one
//	found, err := it.Lookup("alice", reply)                                                  // found.Key is alice's key, or nil
//
// Feed takes entries that continue the chain, and Lookup a reply whose entry is one of that chain. For anything else they return a
// *Refusal, whose Cause says why, and keep nothing of what was refused. Signatures are verified first, so what anyone can send is
// never an alarm. What convicts the provider is the Evidence of the *Refusal: publish it. Another error is one of the caller.
//
//	err = it.Watch("alice", myKey)          // my own name: each epoch must show my key
//	found, err = it.Lookup("alice", reply)  // found.Seen is Same, Changed or Absent
//	it.Missing()                            // the epochs for which no reply was accepted
//	it.Lost()                               // those of them that can no longer be verified
//	err = it.Expect(newKey, by)             // before I change my key
//	it.Report()                             // what to tell the owner, with alarms of epochs that were dropped
//	store(it.State())                       // and then client.Resume
//
// If the policy has a clock, the latest epoch must have begun at most MaxAge ago, by default two periods. It must begin at most
// Skew from now, by default 300 seconds. Only LookupAt accepts an older epoch: pass a number of your own, never that of the reply.
// Without a clock, Found.FirstSeen says since when this client has had the entry. Times are compared in whole seconds: what is beyond
// them of the time, of MaxAge and of Skew is left out.
//
// Each accepted entry is kept, until Drop is called, or Cover with an auditor's head. Compare heads with auditors and other clients:
// Compare says whether a head is one of this chain, and Evidence what convicts the provider together with another one's entry. With Trust
// in the Settings, Mark notes the heads of its auditors, and IsRelied says whether a quorum of them confirms an epoch.
//
// The keys are public keys of Ed25519 (RFC 8032) and of ECVRF-EDWARDS25519-SHA512-TAI (RFC 9381). For other schemes, set Signatures
// and Indices. What a client accepts is decided by the proved core (include/coniks_core.h); verdicts.go makes the verdicts on signatures
// and VRF proofs that it is given.
package client

import (
	"errors"
	"sync"
	"time"

	"example.org/coniks"
)

// Settings are what a client is made with. SigningKey and VRFKey, and one of Policy and Digest, are what the directory publishes.
type Settings struct {
	// SigningKey is the public key of the signatures, 32 bytes. Signatures, in its place, verifies those of another scheme.
	SigningKey []byte
	Signatures SignatureScheme
	// VRFKey is the public key of the VRF, 32 bytes. Indices, in its place, verifies those of another scheme. Both are nil in a
	// directory without a VRF, in which nothing can be looked up.
	VRFKey  []byte
	Indices IndexScheme
	// Policy is the policy document. Digest, in its place, is the policy digest alone, without a clock.
	Policy *coniks.Policy
	Digest *[32]byte
	// MaxAge is how long ago the latest epoch may have begun, two periods if nil. Skew is how far ahead it may begin, 300 seconds if
	// nil. Both count only with a policy that has a clock.
	MaxAge, Skew *time.Duration
	// Clock returns the time, which is not before 1970. It is time.Now if nil. It must not call the client.
	Clock func() time.Time
	// Trust names the auditors of which a quorum confirms epochs. None is confirmed if it is nil.
	Trust *Trust
}

// Trust is what a client needs of a trust document: its SHA-256, how many auditors it has, and how many of them may lie or be silent. An
// auditor's place, from 0 on, is that of its line among theirs.
type Trust struct {
	Digest           [32]byte
	Auditors, Faulty uint32
}

// Client is a client of one directory. New, Resume and Vouched make one: its zero value can't be used. All calls can be used from
// several goroutines, and are made one after another. A client must not be copied: one of both would miss what the other is fed.
type Client struct {
	mutex      sync.Mutex
	signatures SignatureScheme
	indices    IndexScheme
	clock      clock
	memory     *memory
	// successor is the successor key of the policy, nil if there is none.
	successor *[32]byte
}

// locked begins a call, and returns what ends it. Until then it refers to the client.
func (c *Client) locked() (unlock func()) {
	c.mutex.Lock()
	return c.mutex.Unlock
}

// New returns a client that has no entry: the first one that it accepts begins the chain.
func New(settings Settings) (*Client, error) {
	signatures, indices, err := settings.schemes()
	if err != nil {
		return nil, err
	}
	rules, auditors, err := settings.rules()
	if err != nil {
		return nil, err
	}
	it := &Client{signatures: signatures, indices: indices, clock: time.Now, memory: newMemory(rules, auditors)}
	if settings.Clock != nil {
		it.clock = settings.Clock
	}
	if policy := settings.Policy; policy != nil && policy.SuccessorKey != nil {
		key := *policy.SuccessorKey
		it.successor = &key
	}
	return it, nil
}

// Resume returns a client that goes on from the State of another one, of the same directory. The marks of its auditors are those of the
// state if that names the same trust document and as many auditors.
func Resume(settings Settings, state []byte) (*Client, error) {
	it, err := New(settings)
	if err != nil {
		return nil, err
	}
	if err := it.resume(state); err != nil {
		return nil, err
	}
	return it, nil
}

// Vouched returns a client whose chain begins with an entry for which at least that number of auditors have a head. The heads are those of
// at most 64 auditors for the entry's epoch, by the auditors' names: get each from the auditor itself. With Trust in the Settings, call Mark
// with each of them afterwards.
func Vouched(settings Settings, entry []byte, heads map[string]coniks.Head, least int) (*Client, error) {
	it, err := New(settings)
	if err != nil {
		return nil, err
	}
	if least < 1 {
		return nil, errors.New("at least one auditor vouches for an entry: pass how many must")
	}
	if err := it.accept(entry, it.memory.starting(heads, least)); err != nil {
		return nil, err
	}
	return it, nil
}

// digest returns the policy digest.
func (s *Settings) digest() ([32]byte, error) {
	switch {
	case (s.Policy == nil) == (s.Digest == nil):
		return [32]byte{}, errors.New("Policy and Digest are both missing or both set: set one of them")
	case s.Digest != nil:
		return *s.Digest, nil
	}
	return s.Policy.Digest()
}

// State returns all that the client keeps, for Resume: 110 bytes, 218 for each epoch, 9 for each alarm, 8 for each auditor, and those of
// the watched name. Store it after each call that may change it, also after an error: Feed keeps the entries before the one that it
// refuses. A client that goes on from an older state has forgotten what was accepted since.
func (c *Client) State() []byte {
	defer c.locked()()
	return c.memory.state()
}

// resume takes a state. It verifies the whole chain, and takes all of it or nothing.
func (c *Client) resume(given []byte) error {
	var in arena
	defer in.free()
	state := in.bytes(given)
	status, needs := c.memory.stateNeeds(state)
	if status == 0 {
		status = c.memory.read(state, needs, c.stateVerdicts(state, needs))
	}
	return refused(status)
}
