package client

import (
	"bytes"
	"fmt"
	"strings"
	"testing"

	"example.org/coniks"
)

// The same watch once more changes nothing, and another one is an error.
func TestWatchAgain(t *testing.T) {
	it := newWorld(t, "AB")
	made := it.client(t, 1)
	good(t, made.Watch("alice", []byte("A")))
	state := made.State()
	good(t, made.Watch("alice", []byte("A")))
	good(t, made.WatchSince("alice", []byte("A"), 1))
	misuse(t, made.Watch("bob", []byte("A")))
	misuse(t, made.Watch("alice", []byte("B")))
	misuse(t, made.Watch("alice", nil))
	misuse(t, made.WatchSince("alice", []byte("A"), 2))
	misuse(t, made.WatchSince("bob", []byte("A"), 1))
	if !bytes.Equal(made.State(), state) {
		t.Error("a watch that is refused is kept")
	}
	good(t, made.Expect([]byte("B"), 2))
	good(t, made.Watch("alice", []byte("A")))
	good(t, made.Watch("alice", []byte("B")))
	misuse(t, made.Watch("alice", []byte("C")))
}

// What a client sees of its own name, from an epoch without a key to a key that changes back.
func TestSeen(t *testing.T) {
	it := newWorld(t, "-AABAC-")
	made := it.client(t, 7)
	good(t, made.WatchSince("alice", []byte("A"), 2))
	if missing := made.Missing(); fmt.Sprint(missing) != "[2 3 4 5 6 7]" {
		t.Fatal(missing)
	}
	for at, wanted := range []Watched{Unwatched, Same, Same, Changed, Same, Changed, Absent} {
		epoch := uint64(at) + 1
		found, err := made.LookupAt("alice", it.reply(epoch), epoch)
		if err != nil || found.Seen != wanted {
			t.Error(epoch, found, err)
		}
	}
	if len(made.Missing()) > 0 {
		t.Error(made.Missing())
	}
}

// sees looks alice up at an epoch, and compares what that shows of her key.
func (w *world) sees(t *testing.T, made *Client, epoch uint64, wanted Watched) {
	t.Helper()
	found, err := made.LookupAt("alice", w.reply(epoch), epoch)
	if err != nil || found.Seen != wanted {
		t.Errorf("epoch %d: %v, %v", epoch, found, err)
	}
}

// feed feeds the epochs after one up to another one.
func (w *world) feed(t *testing.T, made *Client, after, last int) {
	t.Helper()
	_, err := made.Feed(w.chain[after:last])
	good(t, err)
}

// The old key once more, at an epoch that is withheld until an auditor covers the one before it.
func TestOldKeyOnceMore(t *testing.T) {
	it := newWorld(t, "AABAB")
	made := it.client(t, 2)
	good(t, made.WatchSince("alice", []byte("A"), 1))
	it.sees(t, made, 1, Same)
	it.sees(t, made, 2, Same)
	good(t, made.Expect([]byte("B"), 5))
	it.feed(t, made, 2, 5)
	it.sees(t, made, 3, Same)
	it.sees(t, made, 5, Same)
	if compared := made.Cover(it.head(5)); compared != Equal || len(made.Entries()) != 2 {
		t.Fatal(compared, len(made.Entries()))
	}
	it.sees(t, made, 4, Changed)
}

// A new key too early, at an epoch that is withheld until the next change is expected.
func TestNewKeyTooEarly(t *testing.T) {
	it := newWorld(t, "ABABC")
	made := it.client(t, 1)
	good(t, made.Watch("alice", []byte("A")))
	it.sees(t, made, 1, Same)
	good(t, made.Expect([]byte("B"), 4))
	it.feed(t, made, 1, 4)
	it.sees(t, made, 3, Same)
	it.sees(t, made, 4, Same)
	good(t, made.Expect([]byte("C"), 5))
	it.feed(t, made, 4, 5)
	it.sees(t, made, 2, Changed)
	it.sees(t, made, 5, Same)
}

// Each epoch of two changes in a row is the same, whenever it is looked up again.
func TestChangesInARow(t *testing.T) {
	it := newWorld(t, "AAABBCC")
	made := it.client(t, 3)
	good(t, made.WatchSince("alice", []byte("A"), 1))
	it.sees(t, made, 1, Same)
	it.sees(t, made, 3, Same)
	good(t, made.Expect([]byte("B"), 4))
	it.feed(t, made, 3, 5)
	it.sees(t, made, 4, Same)
	good(t, made.Expect([]byte("C"), 6))
	it.feed(t, made, 5, 7)
	for _, epoch := range []uint64{7, 2, 1, 2, 3, 4, 5, 6, 7} {
		it.sees(t, made, epoch, Same)
	}
	whole := len(made.State())
	for oldest, dropped := range map[uint64]int{4: 3, 6: 5} {
		again, err := Resume(it.settings(7), made.State())
		good(t, err)
		if compared := again.Cover(it.head(oldest)); compared != Equal || len(again.Entries()) != 7-dropped {
			t.Error(compared, len(again.Entries()))
		}
		// A change with a key of one byte has 21 bytes.
		if changes := (dropped - 1) / 2; len(again.State()) != whole-218*dropped-21*changes {
			t.Error(oldest, len(again.State()))
		}
		for epoch := oldest; epoch <= 7; epoch++ {
			it.sees(t, again, epoch, Same)
		}
	}
}

// A change that is over at an epoch that shows the new key, before `by`.
func TestNextChange(t *testing.T) {
	it := newWorld(t, "AABC")
	made := it.client(t, 1)
	good(t, made.Watch("alice", []byte("A")))
	good(t, made.Expect([]byte("B"), 9))
	it.feed(t, made, 1, 3)
	it.sees(t, made, 2, Same)
	misuse(t, made.Expect([]byte("C"), 9))
	it.sees(t, made, 3, Same)
	misuse(t, made.Expect([]byte("B"), 9))
	good(t, made.Expect([]byte("C"), 9))
	it.feed(t, made, 3, 4)
	it.sees(t, made, 4, Same)
	for _, key := range []string{"A", "B", "C"} {
		good(t, made.Watch("alice", []byte(key)))
	}
	misuse(t, made.Watch("alice", []byte("D")))
}

// Each call that the caller must not make has an error of its own, and that of the name comes before that of the key.
func TestMisuses(t *testing.T) {
	it := newWorld(t, "AA")
	made := it.client(t, 2)
	a, empty := []byte("A"), []byte{}
	_, report := made.Report()
	_, mark := made.Mark(0, it.head(1))
	heads := map[string]coniks.Head{}
	for at := 0; at < 65; at++ {
		heads[fmt.Sprint(at)] = it.head(1)
	}
	_, vouched := Vouched(it.settings(2), it.entries[1], heads, 1)
	for _, wanted := range []struct {
		err  error
		text string
	}{
		{report, "no name is watched"},
		{mark, "the trust document has no such auditor"},
		{vouched, "at most 64 auditors"},
		{made.Expect(a, 9), "no name is watched"},
		{made.Expect(empty, 9), "no name is watched"},
		{made.Watch("", empty), "a name has 1 to 255 bytes, not 0"},
		{made.Watch(strings.Repeat("a", 256), empty), "a name has 1 to 255 bytes, not 256"},
		{made.Watch(strings.Repeat("a", 255), empty), "an expected key has at least one byte"},
		{made.Watch("alice", empty), "an expected key has at least one byte"},
		{made.Watch("alice", a), "<nil>"},
		{made.Watch("bob", a), "this client watches another name or key"},
		{made.Expect(empty, 9), "an expected key has at least one byte"},
		{made.Expect(a, 9), "the new key is the one that is expected already"},
		{made.Expect(nil, 2), "epoch 2 is in the chain"},
		{made.Expect(nil, 3), "<nil>"},
		{made.Expect(a, 9), "another change is expected by epoch 3"},
	} {
		if text := fmt.Sprint(wanted.err); !strings.HasPrefix(text, wanted.text) {
			t.Errorf("got %q, wanted %q", text, wanted.text)
		}
	}
}

// The errors of a reply that has several, in their order.
func TestOrderOfErrors(t *testing.T) {
	it := newWorld(t, "AA")
	made := it.client(t, 2)
	late, err := New(it.settings(9))
	good(t, err)
	_, err = late.Feed(it.chain)
	good(t, err)
	reply := func(entry, vrf, proof []byte) []byte {
		return bytes.Join([][]byte{{1}, entry, {0, byte(len(vrf))}, vrf, proof}, nil)
	}
	forged := copied(it.entries[2])
	forged[120]++
	forked := newWorld(t, "AB").entries[2]
	for _, wanted := range []struct {
		client *Client
		reply  []byte
		cause  Cause
	}{
		{late, reply(forged, []byte{1}, nil)[:211], CutInVRF},
		{late, reply(forged, []byte{1}, nil), Signature},
		{late, reply(forked, []byte{1}, nil), Equivocation},
		{late, reply(it.entries[1], []byte{1}, nil), OtherEpoch},
		{late, reply(it.entries[2], []byte{1}, nil), Stale},
		{made, reply(it.entries[2], []byte{1}, nil), VRFProof},
		{made, reply(it.entries[2], []byte{1}, it.proofs[1]), VRFProof},
		{made, reply(it.entries[2], nil, nil), NoBytes},
	} {
		_, err := wanted.client.Lookup("alice", wanted.reply)
		wants(t, err, wanted.cause)
	}
	history := bytes.Join([][]byte{{1, 0, 1, 7}, number(9, 8), {0, 0, 0}}, nil)
	_, err = made.History("alice", append(history, 0))
	wants(t, err, CutInStep)
	_, err = made.History("alice", history)
	wants(t, err, VRFProof)
	_, err = made.History("alice", bytes.Join([][]byte{{1, 0, 0}, number(9, 8), {0, 0, 0}}, nil))
	wants(t, err, UnknownEpoch)
}
