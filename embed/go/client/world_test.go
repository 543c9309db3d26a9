package client

import (
	"bytes"
	"crypto/ed25519"
	"crypto/sha256"
	"encoding/binary"
	"encoding/hex"
	"encoding/json"
	"errors"
	"os"
	"testing"
	"time"

	"example.org/coniks"
)

// examples are those of docs/FORMATS.md: alice is registered with the key `k` at epoch 1, and bob at epoch 2. Watch is the end of the
// second state.
type examples struct {
	Policy, Signing, VRF, Reply, History, State, Trust string
	Entries                                            []string
}

func unhex(t testing.TB, text string) []byte {
	t.Helper()
	bytes, err := hex.DecodeString(text)
	if err != nil {
		t.Fatal(err)
	}
	return bytes
}

func readJSON(t testing.TB, file string, into any) {
	t.Helper()
	text, err := os.ReadFile(file)
	if err == nil {
		err = json.Unmarshal(text, into)
	}
	if err != nil {
		t.Fatal(err)
	}
}

// readExamples returns the examples, and the settings of a client for them at a time after the start of epoch 1.
func readExamples(t testing.TB, now *time.Time) (it examples, settings Settings) {
	t.Helper()
	readJSON(t, "../testdata/messages.json", &it)
	policy, err := coniks.ReadPolicy([]byte(it.Policy))
	if err != nil {
		t.Fatal(err)
	}
	*now = time.Unix(int64(policy.EpochStart), 0)
	return it, Settings{
		SigningKey: policy.SigningKey[:], VRFKey: policy.VRFKey[:], Policy: &policy, Clock: func() time.Time { return *now },
	}
}

// good ends a test at an error.
func good(t testing.TB, err error) {
	t.Helper()
	if err != nil {
		t.Fatal(err)
	}
}

// wants compares the cause of a refusal.
func wants(t testing.TB, err error, cause Cause) {
	t.Helper()
	var refusal *Refusal
	if !errors.As(err, &refusal) || refusal.Cause != cause {
		t.Errorf("got %v, wanted %v", err, cause)
	}
}

// keepsNothing checks that a new client refuses a chain for a cause, and keeps no entry of it.
func keepsNothing(t testing.TB, settings Settings, chain [][]byte, cause Cause) {
	t.Helper()
	made, err := New(settings)
	good(t, err)
	_, err = made.Feed(chain)
	if wants(t, err, cause); len(made.Entries()) > 0 {
		t.Error("a refused entry is kept")
	}
}

// misuse checks that an error is one of the caller.
func misuse(t testing.TB, err error) {
	t.Helper()
	var refusal *Refusal
	if err == nil || errors.As(err, &refusal) {
		t.Errorf("got %v, wanted an error that is no refusal", err)
	}
}

// named are indices without a VRF, whose proofs have no byte.
type named struct{}

func (named) Index(name string, proof []byte) ([32]byte, bool) {
	return sha256.Sum256([]byte(name)), len(proof) == 0
}

// world is a directory of epochs in which only alice is ever registered, so that its trees have one leaf. Its bytes are made by
// docs/FORMATS.md.
type world struct {
	signing ed25519.PrivateKey
	policy  coniks.Policy
	entries map[uint64][]byte
	proofs  map[uint64][]byte
	chain   [][]byte
}

const hour = 3600

var (
	nonce   = [32]byte{3}
	opening = [32]byte{4}
)

func number(value uint64, size int) []byte {
	return binary.BigEndian.AppendUint64(nil, value)[8-size:]
}

// leafProof returns the root of a tree with one name, and the name's proof. A key of no byte is none.
func leafProof(name string, key []byte) (root [32]byte, proof []byte) {
	if len(key) == 0 {
		return sha256.Sum256(bytes.Join([][]byte{{0x45}, nonce[:], make([]byte, 34)}, nil)), []byte{0, 0, 0}
	}
	bound := bytes.Join([][]byte{opening[:], number(uint64(len(name)), 2), []byte(name), number(uint64(len(key)), 4), key}, nil)
	commitment, index := sha256.Sum256(append([]byte{0x43}, bound...)), sha256.Sum256([]byte(name))
	root = sha256.Sum256(bytes.Join([][]byte{{0x4c}, nonce[:], index[:], {0, 0}, commitment[:]}, nil))
	return root, append([]byte{2, 0, 0}, bound...)
}

// newWorld is a world with alice's key at each epoch from 1 on, `-` for none. Its epochs last an hour, and it promises proofs for ever.
func newWorld(t testing.TB, keys string) *world {
	return worldOf(t, keys, coniks.Policy{EpochStart: 1000, EpochPeriod: hour})
}

// promisingWorld is a world that promises proofs for a number of seconds, or for ever.
func promisingWorld(t testing.TB, keys string, stored *uint64) *world {
	return worldOf(t, keys, coniks.Policy{EpochStart: 1000, EpochPeriod: hour, ProofsKept: stored})
}

// worldOf is a world with the clock and the promise of a policy.
func worldOf(t testing.TB, keys string, policy coniks.Policy) *world {
	it := &world{signing: ed25519.NewKeyFromSeed(make([]byte, 32)), entries: map[uint64][]byte{}, proofs: map[uint64][]byte{}}
	it.policy = policy
	it.policy.Origin = "example.org"
	copy(it.policy.SigningKey[:], it.signing.Public().(ed25519.PublicKey))
	digest, err := it.policy.Digest()
	good(t, err)
	var before [32]byte
	for at, letter := range keys {
		epoch, key := uint64(at)+1, []byte(string(letter))
		if letter == '-' {
			key = nil
		}
		body := coniks.Body{Version: 1, Epoch: epoch, PreviousEpoch: epoch - 1, PreviousLink: before, Nonce: nonce, Policy: digest}
		body.Root, it.proofs[epoch] = leafProof("alice", key)
		entry := it.sign(body)
		before = sha256.Sum256(append([]byte{0x53}, entry...))
		it.entries[epoch], it.chain = entry, append(it.chain, entry)
	}
	return it
}

func (w *world) sign(body coniks.Body) []byte {
	text := body.Bytes()
	return append(text[:], ed25519.Sign(w.signing, text[:])...)
}

func (w *world) reply(epoch uint64) []byte {
	return bytes.Join([][]byte{{1}, w.entries[epoch], {0, 0}, w.proofs[epoch]}, nil)
}

func (w *world) head(epoch uint64) coniks.Head {
	return coniks.Head{Epoch: epoch, Link: sha256.Sum256(append([]byte{0x53}, w.entries[epoch]...))}
}

// start is when an epoch begins.
func (w *world) start(epoch uint64) time.Time { return time.Unix(int64(1000+(epoch-1)*hour), 0) }

// settings are those of a client at a time within an epoch.
func (w *world) settings(epoch uint64) Settings {
	now := w.start(epoch).Add(10 * time.Minute)
	policy := w.policy
	return Settings{
		SigningKey: copied(policy.SigningKey[:]), Indices: named{}, Policy: &policy, Clock: func() time.Time { return now },
	}
}

// client is a client that is fed the first epochs.
func (w *world) client(t testing.TB, epochs int) *Client {
	t.Helper()
	made, err := New(w.settings(uint64(epochs)))
	good(t, err)
	_, err = made.Feed(w.chain[:epochs])
	good(t, err)
	return made
}
