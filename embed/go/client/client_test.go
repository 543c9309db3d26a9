package client

import (
	"bytes"
	"encoding/hex"
	"errors"
	"fmt"
	"os"
	"path/filepath"
	"regexp"
	"strings"
	"testing"
	"time"

	"example.org/coniks"
)

func TestExamplesOfFormats(t *testing.T) {
	var now time.Time
	wanted, settings := readExamples(t, &now)
	begin := now
	it, err := New(settings)
	good(t, err)
	good(t, it.Watch("alice", []byte("k")))
	for epoch, entry := range wanted.Entries {
		now = begin.Add(time.Duration(epoch)*time.Hour + time.Minute)
		steps, err := it.FeedCatchUp(unhex(t, entry))
		if err != nil || len(steps) != 1 || steps[0] != (Step{uint64(epoch) + 1, Missing}) {
			t.Fatal(steps, err)
		}
	}
	found, err := it.Lookup("alice", unhex(t, wanted.Reply))
	good(t, err)
	if found.Epoch != 2 || string(found.Key) != "k" || found.Seen != Same || *found.Age != time.Minute ||
		found.FirstSeen != uint64(now.Unix()) {
		t.Error(found)
	}
	again, err := Resume(settings, it.State())
	if err != nil || !bytes.Equal(again.State(), it.State()) || fmt.Sprint(again.Missing()) != "[1]" {
		t.Fatal(err)
	}
	good(t, it.Expect([]byte("n"), 5))
	changed, err := Resume(settings, it.State())
	if err != nil || !bytes.Equal(changed.State(), it.State()) {
		t.Error(err)
	}
	all, err := again.History("alice", unhex(t, wanted.History))
	if err != nil || len(all) != 2 || all[0].Epoch != 1 || string(all[0].Key) != "k" || all[1].Seen != Same || len(again.Missing()) > 0 {
		t.Error(all, err)
	}
	if &all[0].Key[0] != &all[1].Key[0] {
		t.Error("a key that a history repeats is one slice")
	}
	if cap(all[0].Key) != 1 {
		t.Error("what is appended to a key of a history changes the history")
	}
}

// The state of docs/STORED.md with an alarm and marks, and what becomes of both.
func TestAuditorsOfFormats(t *testing.T) {
	var now time.Time
	wanted, settings := readExamples(t, &now)
	begin := now
	settings.Trust = &Trust{Auditors: 2, Faulty: 1}
	copy(settings.Trust.Digest[:], unhex(t, wanted.Trust))
	_, err := New(settings)
	misuse(t, err)
	settings.Trust.Faulty = 0
	it, err := New(settings)
	good(t, err)
	_, err = it.Report()
	misuse(t, err)
	good(t, it.Watch("alice", []byte("l")))
	for epoch, entry := range wanted.Entries {
		now = begin.Add(time.Duration(epoch)*time.Hour + time.Minute)
		_, err = it.FeedCatchUp(unhex(t, entry))
		good(t, err)
	}
	_, err = it.History("alice", unhex(t, wanted.History))
	good(t, err)
	for auditor, confirmed := range []bool{false, true} {
		found, err := it.Mark(auditor, *it.Head())
		if _, is := it.Confirmed(); err != nil || found != Equal || is != confirmed {
			t.Error(auditor, found, err)
		}
	}
	_, err = it.Mark(2, *it.Head())
	misuse(t, err)
	if it.Cover(*it.Head()) != Equal || len(it.Entries()) != 2 {
		t.Error("one auditor's head drops an epoch")
	}
	if fmt.Sprint(it.Drop()) != "[1]" || hex.EncodeToString(it.State()) != wanted.State {
		t.Error(hex.EncodeToString(it.State()))
	}
	it, err = Resume(settings, it.State())
	good(t, err)
	if alarms, want := it.Alarms(), (Alarm{1, Changed}); len(alarms) != 1 || alarms[0] != want {
		t.Error(alarms)
	}
	if is, err := it.IsRelied(2); !is || err != nil {
		t.Error(is, err)
	}
	_, err = it.IsRelied(1)
	wants(t, err, UnknownEpoch)
	for epoch, wanted := range []uint64{1, 2} {
		it.Note(uint64(epoch))
		if report, err := it.Report(); err != nil || report != (Report{ReportChanged, wanted, wanted}) {
			t.Error(report, err)
		}
	}
	settings.Trust.Auditors = 3
	others, err := Resume(settings, it.State())
	good(t, err)
	if is, err := others.IsRelied(2); is || err != nil {
		t.Error("the marks of other auditors count", err)
	}
}

// The core is given verdicts that one file makes.
func TestVerdictsInOnePlace(t *testing.T) {
	files, err := filepath.Glob("*.go")
	good(t, err)
	var making []string
	for _, file := range files {
		text, err := os.ReadFile(file)
		good(t, err)
		isMaking := regexp.MustCompile(`signatures\.Verify\(|indices\.Index\(|verdicts\.(index|signature)`).Match(text)
		if isMaking && !strings.HasSuffix(file, "_test.go") {
			making = append(making, file)
		}
	}
	if fmt.Sprint(making) != "[verdicts.go]" {
		t.Error(making)
	}
}

// errors.Is compares a refusal with causes and with the errors of package coniks.
func TestRefusal(t *testing.T) {
	it := newWorld(t, "AAA")
	made := it.client(t, 2)
	_, err := made.Lookup("alice", append(it.reply(2), 0))
	if !errors.Is(err, BytesFollow) || !errors.Is(err, coniks.ErrBytesFollow) || errors.Is(err, coniks.ErrNoBytes) ||
		errors.Is(err, NoBytes) || err.Error() != coniks.ErrBytesFollow.Error() {
		t.Error(err)
	}
	_, err = made.Lookup("alice", nil)
	if wants(t, err, NoReply); errors.Is(err, coniks.Refused(0)) || errors.Is(err, coniks.Refused(64)) {
		t.Error(err)
	}
	forked := newWorld(t, "AB")
	_, err = made.Feed([][]byte{forked.entries[2]})
	var refusal *Refusal
	if !errors.As(err, &refusal) || refusal.Cause != Equivocation || !errors.Is(err, coniks.ErrNotLater) {
		t.Fatal(err)
	}
	kind, err := coniks.Convicts(refusal.Evidence.Mine, refusal.Evidence.Other)
	if err != nil || kind != coniks.Overlap || refusal.Evidence.Kind != kind || !bytes.Equal(refusal.Evidence.Other, forked.entries[2]) {
		t.Error(refusal.Evidence, err)
	}
}

// The numbers and names of docs/FORMATS.md.
func TestCauses(t *testing.T) {
	names := strings.Fields(`2 TooDeep 3 NameLength 4 KeyLength 5 WrongName 6 OtherIsSame 7 OtherOffPath 8 RootMismatch 17 NoBytes
		18 UnknownKind 19 CutInCount 20 CutInSiblings 21 CutInOther 22 CutInOpening 23 CutInName 24 CutInKey 25 BytesFollow
		33 Version 34 VersionBack 35 FirstEpoch 36 NotLater 37 PreviousEpoch 38 PreviousLink 39 NonceChanged 40 Signature
		48 EntryLength 64 NoReply 65 ReplyVersion 66 CutInEntry 67 CutInVrf 68 CatchUpLength 69 NoHistory 70 HistoryVersion
		71 CutInStep 72 EpochOrder 73 UnknownEnd 74 SiblingMap 75 SiblingRepeated 76 EndRepeated 80 OtherPolicy 81 Malformed
		82 Equivocation 83 UnknownEpoch 84 OtherEpoch 85 Stale 86 Future 87 VrfProof 88 SuccessionPolicy 89 SuccessionSignature
		90 NextPolicy 91 ChainDiffers 92 OtherStart 96 StateLength 97 StateVersion 98 StateDamaged
		99 StatePolicy 100 StateForm 101 StateChain 104 NotVouched 105 AuditorsDiffer 112 SigningKey 113 VrfKey 114 PolicyKeys`)
	known := map[Cause]string{}
	for at := 0; at < len(names); at += 2 {
		var number uint8
		fmt.Sscan(names[at], &number)
		known[Cause(number)] = names[at+1]
	}
	for number := 0; number < 256; number++ {
		cause := Cause(number)
		name, is := known[cause]
		if !is {
			name = fmt.Sprintf("Cause(%d)", number)
		}
		if cause.String() != name || cause.Error() != name {
			t.Error(number, cause)
		}
		if text := refusal(cause).Error(); is && (text == "" || strings.HasPrefix(text, "status ")) {
			t.Error(cause, text)
		}
		if number < 64 && (coniks.Text(uint32(number)) != "") != (is || number == 49) {
			t.Error(cause)
		}
	}
	if len(known) != len(causes) {
		t.Error(len(known), len(causes))
	}
}

// Settings that a caller must not pass, and keys that are no keys.
func TestSettings(t *testing.T) {
	it := newWorld(t, "A")
	digest, err := it.policy.Digest()
	good(t, err)
	negative := -time.Nanosecond
	for what, change := range map[string]func(*Settings){
		"no signing key":   func(it *Settings) { it.SigningKey = nil },
		"two signing keys": func(it *Settings) { it.Signatures = accepting{} },
		"two VRFs":         func(it *Settings) { it.VRFKey = it.SigningKey },
		"no policy":        func(it *Settings) { it.Policy = nil },
		"two policies":     func(it *Settings) { it.Digest = &digest },
		"no document":      func(it *Settings) { it.Policy.Origin = "" },
		"a MaxAge below 0": func(it *Settings) { it.MaxAge = &negative },
		"a Skew below 0":   func(it *Settings) { it.Skew = &negative },
	} {
		settings := it.settings(1)
		change(&settings)
		made, err := New(settings)
		if misuse(t, err); made != nil {
			t.Error(what)
		}
		made, err = Resume(settings, it.client(t, 1).State())
		if misuse(t, err); made != nil {
			t.Error(what)
		}
	}
	key := it.policy.SigningKey
	for what, change := range map[string]func(*Settings) Cause{
		"an empty signing key": func(it *Settings) Cause { it.SigningKey = []byte{}; return SigningKey },
		"31 bytes":             func(it *Settings) Cause { it.SigningKey = it.SigningKey[:31]; return SigningKey },
		"33 bytes":             func(it *Settings) Cause { it.SigningKey = append(copied(it.SigningKey), 0); return SigningKey },
		"an empty VRF key":     func(it *Settings) Cause { it.Indices, it.VRFKey = nil, []byte{}; return VRFKey },
		"another signing key":  func(it *Settings) Cause { it.Policy.SigningKey[0]++; return PolicyKeys },
		"a VRF key too many":   func(it *Settings) Cause { it.Indices, it.VRFKey = nil, key[:]; return PolicyKeys },
		"a VRF key too few":    func(it *Settings) Cause { it.Indices, it.Policy.VRFKey = nil, &key; return PolicyKeys },
		"another VRF key": func(it *Settings) Cause {
			it.Indices, it.VRFKey, it.Policy.VRFKey = nil, key[:], new([32]byte)
			return PolicyKeys
		},
	} {
		settings := it.settings(1)
		cause := change(&settings)
		made, err := New(settings)
		if wants(t, err, cause); made != nil {
			t.Error(what)
		}
	}
}

// A policy digest in place of the document has no clock, and no keys to compare.
func TestDigestAlone(t *testing.T) {
	it := newWorld(t, "AB")
	digest, err := it.policy.Digest()
	good(t, err)
	settings := it.settings(1000)
	settings.Policy, settings.Digest = nil, &digest
	made, err := New(settings)
	good(t, err)
	digest[0]++
	_, err = made.Feed(it.chain)
	good(t, err)
	found, err := made.Lookup("alice", it.reply(2))
	if err != nil || found.Age != nil || string(found.Key) != "B" {
		t.Error(found, err)
	}
	settings.Indices = nil
	keepsNothing(t, settings, it.chain, OtherPolicy)
}

// Without a VRF key nothing can be looked up.
func TestNoVRF(t *testing.T) {
	it := newWorld(t, "A")
	settings := it.settings(1)
	settings.Indices = nil
	made, err := New(settings)
	good(t, err)
	_, err = made.Feed(it.chain)
	good(t, err)
	for _, vrf := range [][]byte{{0, 0}, append([]byte{0, 80}, make([]byte, 80)...)} {
		_, err = made.Lookup("alice", bytes.Join([][]byte{{1}, it.entries[1], vrf, it.proofs[1]}, nil))
		wants(t, err, VRFProof)
	}
}

func TestVouched(t *testing.T) {
	it := newWorld(t, "AAA")
	settings := it.settings(3)
	heads := map[string]coniks.Head{"one": it.head(2), "two": it.head(2), "three": it.head(1)}
	for least, isVouched := range map[int]bool{1: true, 2: true, 3: false} {
		made, err := Vouched(settings, it.entries[2], heads, least)
		if isVouched != (err == nil) || isVouched != (made != nil) {
			t.Fatal(least, err)
		}
		if !isVouched {
			wants(t, err, NotVouched)
			continue
		}
		if head := made.Head(); *head != it.head(2) {
			t.Error(head)
		}
		_, err = made.Feed(it.chain[2:])
		good(t, err)
	}
	for _, least := range []int{0, -1} {
		_, err := Vouched(settings, it.entries[2], heads, least)
		misuse(t, err)
	}
	heads["four"] = coniks.Head{Epoch: 2}
	_, err := Vouched(settings, it.entries[2], heads, 1)
	wants(t, err, AuditorsDiffer)
	_, err = Vouched(settings, it.entries[2], heads, 9)
	wants(t, err, AuditorsDiffer)
	_, err = Vouched(settings, it.entries[2][1:], heads, 9)
	wants(t, err, EntryLength)
}
