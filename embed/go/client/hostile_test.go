package client

import (
	"bytes"
	"crypto/sha256"
	"encoding/hex"
	"errors"
	"fmt"
	"runtime"
	"sync"
	"sync/atomic"
	"testing"
	"time"

	"example.org/coniks"
)

// accepting accepts each signature and each index proof.
type accepting struct{}

func (accepting) Verify(body, signature []byte) bool { return true }

// scheme is made of functions.
type scheme struct {
	verify func(body, signature []byte) bool
	index  func(name string, proof []byte) ([32]byte, bool)
}

func (s scheme) Verify(body, signature []byte) bool { return s.verify(body, signature) }

func (s scheme) Index(name string, proof []byte) ([32]byte, bool) { return s.index(name, proof) }

// renewed appends the digest of a state.
func renewed(parts ...[]byte) []byte {
	whole := bytes.Join(parts, nil)
	digest := sha256.Sum256(whole)
	return append(whole, digest[:]...)
}

// allocated is how many bytes a call allocates.
func allocated(call func()) uint64 {
	var before, after runtime.MemStats
	runtime.ReadMemStats(&before)
	call()
	runtime.ReadMemStats(&after)
	return after.TotalAlloc - before.TotalAlloc
}

// Lengths and numbers that are far too great are errors, and reserve no memory.
func TestHostileLengths(t *testing.T) {
	it := newWorld(t, "A")
	made, settings := it.client(t, 1), it.settings(1)
	state := made.State()
	front, most, none := state[:33], []byte{255, 255, 255, 255}, make([]byte, 4)
	// No alarm, no trust document and no mark; and the name.
	rest := make([]byte, 4+32+4)
	watch := bytes.Join([][]byte{{1, 1, 'a'}, make([]byte, 8)}, nil)
	// Of no epoch, with these changes after no key.
	watching := func(count byte, changes ...[]byte) []byte {
		return renewed(front, none, rest, watch, make([]byte, 7), []byte{count}, bytes.Join(changes, nil))
	}
	changed := func(lastOld, firstNew uint64, key string) []byte {
		return bytes.Join([][]byte{number(lastOld, 8), number(firstNew, 8), number(uint64(len(key)), 4), []byte(key)}, nil)
	}
	states := map[string][]byte{
		"2^32 - 1 epochs":           renewed(front, most, state[37:]),
		"2^31 epochs":               renewed(front, []byte{128, 0, 0, 0}, state[37:]),
		"two epochs":                renewed(front, []byte{0, 0, 0, 2}, state[37:]),
		"a key of 2^32 - 1 bytes":   renewed(front, none, rest, watch, most, []byte("key")),
		"a name of 255 bytes":       renewed(front, none, rest, []byte{1, 255}, make([]byte, 64)),
		"a name of no byte":         renewed(front, none, rest, []byte{1, 0}, make([]byte, 12)),
		"a watch that is cut":       renewed(front, none, rest, watch[:5]),
		"2^32 - 1 changes":          renewed(front, none, rest, watch, make([]byte, 4), most, changed(0, 1, "A")),
		"a change too many":         watching(2, changed(0, 1, "A")),
		"a change too few":          watching(0, changed(0, 1, "A")),
		"a change that is cut":      watching(1, make([]byte, 15)),
		"a key that is cut":         watching(1, changed(0, 1, "A")[:20]),
		"a change to the same key":  watching(1, changed(0, 1, "")),
		"a change without an epoch": watching(1, changed(7, 7, "A")),
		"a change back to its key":  watching(2, changed(0, 1, "A"), changed(1, 2, "A")),
		"a change within another":   watching(2, changed(0, 5, "A"), changed(4, 6, "B")),
		"a kind of 2":               renewed(front, none, rest, []byte{2}, watch[1:], make([]byte, 8)),
		"2^32 - 1 alarms":           renewed(front, none, most, rest, []byte{0}),
		"2^32 - 1 marks":            renewed(front, none, none, make([]byte, 32), most, make([]byte, 8), []byte{0}),
		"an alarm without a watch":  renewed(front, none, []byte{0, 0, 0, 1}, number(1, 8), []byte{5}, rest[4:], []byte{0}),
		"an alarm of the same key":  renewed(front, none, []byte{0, 0, 0, 1}, number(1, 8), []byte{1}, rest[4:], watch, make([]byte, 8)),
		"bytes after it":            renewed(front, none, rest, []byte{0, 0}),
		"a seen of 2":               renewed(state[:37+217], []byte{2}, rest, watch, make([]byte, 8)),
		"a seen of 6":               renewed(state[:37+217], []byte{6}, rest, watch, make([]byte, 8)),
		"a seen of 0, watched":      renewed(state[:37+217], []byte{0}, rest, watch, make([]byte, 8)),
		"a seen of 1 in a change":   renewed(state[:37+217], []byte{1}, rest, watch, make([]byte, 7), []byte{1}, changed(0, 2, "A")),
		"a seen without a watch":    renewed(state[:37+217], []byte{5}, rest, []byte{0}),
	}
	for what, state := range states {
		if size := allocated(func() {
			again, err := Resume(settings, state)
			if wants(t, err, StateForm); again != nil {
				t.Error(what)
			}
		}); size > 1<<18 {
			t.Error(what, size)
		}
	}
	_, err := Resume(settings, watching(2, changed(0, 5, "A"), changed(5, 6, "")))
	good(t, err)
	entry := it.entries[1]
	replies := map[string]struct {
		reply []byte
		cause Cause
	}{
		"a VRF proof of 65,535 bytes": {bytes.Join([][]byte{{1}, entry, {255, 255}, make([]byte, 65534)}, nil), CutInVRF},
		"a key of 2^32 - 1 bytes": {bytes.Join([][]byte{{1}, entry, {0, 0}, {2, 0, 0}, opening[:], {0, 1, 'a'}, most, {1}}, nil),
			CutInKey},
		"65,535 siblings": {bytes.Join([][]byte{{1}, entry, {0, 0}, {0, 255, 255}, make([]byte, 64)}, nil), CutInSiblings},
	}
	for what, wrong := range replies {
		if size := allocated(func() {
			found, err := made.Lookup("alice", wrong.reply)
			if wants(t, err, wrong.cause); found != nil {
				t.Error(what)
			}
		}); size > 1<<18 {
			t.Error(what, size)
		}
	}
	histories := map[Cause][]byte{
		TooDeep:   bytes.Join([][]byte{{1, 0, 0}, number(1, 8), {0, 1, 1}, make([]byte, 33)}, nil),
		CutInVRF:  {1, 255, 255, 0},
		CutInStep: bytes.Join([][]byte{{1, 0, 0}, number(1, 8), {2, 0, 0}, opening[:], {0, 1, 'a'}, most, {1}}, nil),
	}
	for cause, history := range histories {
		found, err := made.History("alice", history)
		if wants(t, err, cause); found != nil {
			t.Error(found)
		}
	}
	if !bytes.Equal(made.State(), state) {
		t.Error("something refused was kept")
	}
}

// Empty and nil inputs.
func TestNothing(t *testing.T) {
	it := newWorld(t, "A")
	made, err := New(it.settings(1))
	good(t, err)
	if made.Head() != nil || len(made.Entries()) != 0 || len(made.Missing()) != 0 || len(made.State()) != 110 {
		t.Error("a new client has something")
	}
	if made.Compare(coniks.Head{}) != Unknown || made.Cover(coniks.Head{}) != Unknown {
		t.Error("a new client knows a head")
	}
	for _, empty := range [][]byte{nil, {}} {
		steps, err := made.FeedCatchUp(empty)
		if err != nil || len(steps) > 0 {
			t.Error(steps, err)
		}
		_, err = made.Feed([][]byte{empty})
		wants(t, err, EntryLength)
		_, err = made.Lookup("alice", empty)
		wants(t, err, NoReply)
		_, err = made.History("alice", empty)
		wants(t, err, NoHistory)
		_, err = made.Evidence(empty)
		wants(t, err, EntryLength)
		_, err = Resume(it.settings(1), empty)
		wants(t, err, StateLength)
		misuse(t, made.Watch("", empty))
	}
	misuse(t, made.Watch("alice", []byte{}))
	misuse(t, made.Watch(string(make([]byte, 256)), []byte("A")))
	misuse(t, made.Expect([]byte("B"), 9))
	if _, err = made.Lookup("alice", it.reply(1)); !errors.Is(err, UnknownEpoch) {
		t.Error(err)
	}
	good(t, made.Watch("alice", nil))
	misuse(t, made.Expect([]byte{}, 9))
	misuse(t, made.Expect(nil, 9))
}

// The caller changes what it passed, and what it got.
func TestAliasing(t *testing.T) {
	it := newWorld(t, "ABB")
	settings := it.settings(3)
	made, err := New(settings)
	good(t, err)
	settings.SigningKey[0]++
	settings.Policy.EpochPeriod = 1
	entry, key := copied(it.entries[1]), []byte("A")
	good(t, made.Watch("alice", key))
	_, err = made.Feed([][]byte{entry})
	good(t, err)
	catchUp := bytes.Join(it.chain[1:], nil)
	_, err = made.FeedCatchUp(catchUp)
	good(t, err)
	entry[20]++
	catchUp[20]++
	key[0]++
	change := []byte("B")
	state := made.State()
	made.State()[50]++
	made.Entries()[0][20]++
	made.Head().Epoch++
	if !bytes.Equal(made.State(), state) || *made.Head() != it.head(3) {
		t.Fatal("a change outside changed the client")
	}
	evidence, err := made.Evidence(newWorld(t, "B").entries[1])
	good(t, err)
	evidence.Mine[20]++
	evidence.Other[20]++
	reply := it.reply(1)
	found, err := made.LookupAt("alice", reply, 1)
	if err != nil || found.Seen != Same || cap(found.Key) < len(found.Key) {
		t.Fatal(found, err)
	}
	reply[len(reply)-1]++
	if string(found.Key) != "A" {
		t.Error("a key is a part of the reply")
	}
	found.Key[0]++
	good(t, made.Expect(change, 4))
	state = made.State()
	change[0]++
	if !bytes.Equal(made.State(), state) {
		t.Fatal("a change outside changed the client")
	}
	again, err := Resume(it.settings(3), made.State())
	good(t, err)
	if !bytes.Equal(again.State(), made.State()) || !bytes.Equal(again.Entries()[0], it.entries[1]) {
		t.Error("a change outside changed the client")
	}
}

// The evidence against a first entry has bytes of its own.
func TestAliasingOfFirstEntries(t *testing.T) {
	it := newWorld(t, "A")
	digest, err := it.policy.Digest()
	good(t, err)
	entry := it.sign(coniks.Body{Version: 1, Policy: digest})
	before := copied(entry)
	_, err = Vouched(it.settings(1), entry, map[string]coniks.Head{"": it.head(1)}, 1)
	wants(t, err, Malformed)
	entry[20]++
	var refusal *Refusal
	if !errors.As(err, &refusal) || !bytes.Equal(refusal.Evidence.Mine, before) || !bytes.Equal(refusal.Evidence.Other, before) {
		t.Fatal(err)
	}
	refusal.Evidence.Mine[20]++
	if !bytes.Equal(refusal.Evidence.Other, before) {
		t.Error("both entries of an evidence are the same bytes")
	}
}

// What schemes return, and what they do with their arguments.
func TestSchemes(t *testing.T) {
	it := newWorld(t, "AA")
	settings := it.settings(2)
	answer := true
	settings.SigningKey = nil
	settings.Signatures = scheme{verify: func(body, signature []byte) bool {
		if len(body) != 145 || len(signature) != 64 {
			t.Error(len(body), len(signature))
		}
		for at := range body {
			body[at] = 0
		}
		signature[0]++
		return answer
	}}
	settings.Indices = scheme{index: func(name string, proof []byte) (index [32]byte, isValid bool) {
		for at := range proof {
			proof[at]++
		}
		index, _ = named{}.Index(name, nil)
		_ = append(proof, 7)
		return index, answer
	}}
	made, err := New(settings)
	good(t, err)
	_, err = made.Feed(it.chain)
	if good(t, err); !bytes.Equal(made.Entries()[0], it.entries[1]) {
		t.Error("a scheme changed an entry")
	}
	reply := bytes.Join([][]byte{{1}, it.entries[2], {0, 1, 7}, it.proofs[2]}, nil)
	history, given := []byte{1, 0, 1, 7}, copied(reply)
	_, err = made.Lookup("alice", reply)
	good(t, err)
	_, err = made.History("alice", history)
	if good(t, err); !bytes.Equal(reply, given) || history[3] != 7 {
		t.Error("a scheme changed what the caller has")
	}
	state := made.State()
	answer = false
	_, err = made.Lookup("alice", reply)
	wants(t, err, VRFProof)
	_, err = made.History("alice", []byte{1, 0, 0})
	wants(t, err, VRFProof)
	_, err = made.Evidence(it.entries[1])
	wants(t, err, Signature)
	_, err = Resume(settings, state)
	wants(t, err, StateChain)
	_, err = Vouched(settings, it.entries[1], map[string]coniks.Head{"": it.head(1)}, 1)
	wants(t, err, Signature)
	keepsNothing(t, settings, it.chain, Signature)
}

// Schemes are given each entry of 209 bytes once, and the proof of a reply.
func TestGivenToSchemes(t *testing.T) {
	var now time.Time
	wanted, settings := readExamples(t, &now)
	var given []string
	keep := func(parts ...[]byte) { given = append(given, hex.EncodeToString(bytes.Join(parts, nil))) }
	settings.SigningKey, settings.VRFKey = nil, nil
	settings.Signatures = scheme{verify: func(body, signature []byte) bool {
		keep(body, signature)
		return true
	}}
	settings.Indices = scheme{index: func(name string, proof []byte) (index [32]byte, isValid bool) {
		keep([]byte(name), proof)
		return index, false
	}}
	made, err := New(settings)
	good(t, err)
	first, second, reply := unhex(t, wanted.Entries[0]), unhex(t, wanted.Entries[1]), unhex(t, wanted.Reply)
	_, err = made.Feed([][]byte{first, second})
	good(t, err)
	_, err = made.Feed([][]byte{append(copied(second), 0)})
	wants(t, err, EntryLength)
	_, err = made.LookupAt("alice", reply, 2)
	wants(t, err, VRFProof)
	requested := hex.EncodeToString(append([]byte("alice"), reply[212:292]...))
	if wanted := []string{wanted.Entries[0], wanted.Entries[1], requested}; fmt.Sprint(given) != fmt.Sprint(wanted) {
		t.Errorf("got %s, wanted %s", given, wanted)
	}
}

// A panic in a scheme or a clock leaves the client as it was, and usable.
func TestPanics(t *testing.T) {
	it := newWorld(t, "AA")
	settings, isDown := it.settings(2), false
	settings.SigningKey = nil
	settings.Signatures = scheme{verify: func(body, signature []byte) bool {
		if isDown {
			panic("down")
		}
		return true
	}}
	made, err := New(settings)
	good(t, err)
	_, err = made.Feed(it.chain[:1])
	good(t, err)
	state := made.State()
	isDown = true
	func() {
		defer func() {
			if recover() == nil {
				t.Error("no panic")
			}
		}()
		made.Feed(it.chain[1:])
	}()
	if !bytes.Equal(made.State(), state) {
		t.Error("an entry is kept")
	}
	isDown = false
	_, err = made.Feed(it.chain[1:])
	good(t, err)
}

// All calls from several goroutines: each epoch is accepted once, and nothing that was seen is forgotten.
func TestSeveralGoroutines(t *testing.T) {
	const epochs = 40
	it := newWorld(t, string(bytes.Repeat([]byte("A"), epochs)))
	made, err := New(it.settings(epochs))
	good(t, err)
	good(t, made.WatchSince("alice", []byte("A"), 1))
	var group sync.WaitGroup
	for worker := 0; worker < 8; worker++ {
		group.Add(1)
		go func() {
			defer group.Done()
			for epoch := uint64(1); epoch <= epochs; epoch++ {
				if _, err := made.Feed([][]byte{it.entries[epoch]}); err != nil && !errors.Is(err, NotLater) {
					t.Error(err)
				}
				if found, err := made.LookupAt("alice", it.reply(epoch), epoch); err != nil || found.Seen != Same {
					t.Error(found, err)
				}
				made.Compare(it.head(epoch))
				if again, err := Resume(it.settings(epochs), made.State()); err != nil || again.Head() == nil {
					t.Error(err)
				}
			}
		}()
	}
	group.Wait()
	if missing := made.Missing(); len(missing) > 0 || len(made.Entries()) != epochs || *made.Head() != it.head(epochs) {
		t.Error(missing, len(made.Entries()))
	}
}

// While one call is under way, no other one begins.
func TestOneCallAtATime(t *testing.T) {
	it := newWorld(t, "AAA")
	var inside, most int32
	entered, release := make(chan none, 99), make(chan none)
	settings := it.settings(2)
	settings.SigningKey = nil
	settings.Signatures = scheme{verify: func(body, signature []byte) bool {
		if now := atomic.AddInt32(&inside, 1); now > atomic.LoadInt32(&most) {
			atomic.StoreInt32(&most, now)
		}
		entered <- none{}
		<-release
		atomic.AddInt32(&inside, -1)
		return true
	}}
	made, err := New(settings)
	good(t, err)
	calls := map[string]func(){
		"Feed":        func() { made.Feed(it.chain[1:2]) },
		"FeedCatchUp": func() { made.FeedCatchUp(it.entries[3]) },
		"Lookup":      func() { made.Lookup("alice", it.reply(2)) },
		"LookupAt":    func() { made.LookupAt("alice", it.reply(2), 2) },
		"History":     func() { made.History("alice", []byte{1, 0, 0}) },
		"Watch":       func() { made.Watch("alice", nil) },
		"WatchSince":  func() { made.WatchSince("alice", nil, 1) },
		"Expect":      func() { made.Expect([]byte("B"), 9) },
		"Missing":     func() { made.Missing() },
		"Lost":        func() { made.Lost() },
		"Head":        func() { made.Head() },
		"Compare":     func() { made.Compare(it.head(1)) },
		"Cover":       func() { made.Cover(it.head(1)) },
		"Evidence":    func() { made.Evidence(it.entries[3]) },
		"Entries":     func() { made.Entries() },
		"State":       func() { made.State() },
		"Alarms":      func() { made.Alarms() },
		"Note":        func() { made.Note(0) },
		"Report":      func() { made.Report() },
		"Mark":        func() { made.Mark(0, it.head(1)) },
		"Confirmed":   func() { made.Confirmed() },
		"IsRelied":    func() { made.IsRelied(1) },
		"Drop":        func() { made.Drop() },
	}
	ended := make(chan string, len(calls)+1)
	begin := func(what string, call func()) {
		go func() {
			call()
			ended <- what
		}()
	}
	begin("the first Feed", func() { made.Feed(it.chain[:1]) })
	<-entered
	for what, call := range calls {
		begin(what, call)
	}
	left := len(calls) + 1
	select {
	case what := <-ended:
		t.Errorf("%s ended while an entry was verified", what)
		left--
	case <-time.After(100 * time.Millisecond):
	}
	close(release)
	for ; left > 0; left-- {
		<-ended
	}
	if most != 1 {
		t.Errorf("%d signatures were verified at once", most)
	}
}

type none = struct{}
