package coniks

import (
	"bytes"
	"encoding/hex"
	"encoding/json"
	"errors"
	"fmt"
	"math"
	"math/rand"
	"os"
	"strings"
	"testing"
	"time"
)

// examplePolicy is that of testdata/policy.txt, the example of docs/FORMATS.md. Its keys are the first two of RFC 8032, section
// 7.1.
func examplePolicy() Policy {
	it := Policy{Origin: "keys.example.com/directory", VRFKey: new([32]byte), EpochStart: 1767225600, EpochPeriod: 3600}
	hex.Decode(it.SigningKey[:], []byte("d75a980182b10ab7d54bfed3c964073a0ee172f3daa62325af021a68f707511a"))
	hex.Decode(it.VRFKey[:], []byte("3d4017c3e843895a92b70aa74d1b7ebc9c982ccf2ec4968cc0cd55f12af4660c"))
	return it
}

// vouchedPolicy is that of testdata/vouched_policy.txt, the other example of docs/FORMATS.md.
func vouchedPolicy() Policy {
	it := examplePolicy()
	it.RecordsVouched = true
	return it
}

// shortPolicy has none of what may be left out, and proofs that aren't kept.
func shortPolicy() Policy {
	it := examplePolicy()
	it.Origin, it.VRFKey, it.EpochStart, it.EpochPeriod, it.ProofsKept = "a", nil, 0, 0, new(uint64)
	return it
}

// The digests are those of sha256sum.
func TestExamplesOfAPolicy(t *testing.T) {
	long, vouched := examplePolicy(), vouchedPolicy()
	isOfText(t, long, "testdata/policy.txt")
	isOfText(t, vouched, "testdata/vouched_policy.txt")
	for wanted, policy := range map[string]Policy{
		"9b7c1ee453e0628965915c3a88e82924b3e90fe53ba30531b2b3ff12be6f7fef": long,
		"5f75a068225cfe181d7149be0081df3d59afc095aeff7f9e3c1fdaca09965a10": vouched,
		"750a5c93e739bbbbca1b58231a6dda0d53237f9f3be255c5445ede20799199ee": shortPolicy(),
	} {
		if digest, err := policy.Digest(); err != nil || fmt.Sprintf("%x", digest) != wanted {
			t.Errorf("%x %v", digest, err)
		}
	}
	// A policy is a text in JSON.
	var read Policy
	quoted, err := json.Marshal(long)
	if err == nil {
		err = json.Unmarshal(quoted, &read)
	}
	if digest, _ := read.Digest(); err != nil || fmt.Sprintf("%x", digest[:2]) != "9b7c" {
		t.Error(err)
	}
}

// isOfText checks that a policy has the document of a file.
func isOfText(t *testing.T, policy Policy, file string) {
	t.Helper()
	text, err := os.ReadFile(file)
	if err != nil {
		t.Fatal(err)
	}
	if made, err := policy.MarshalText(); err != nil || !bytes.Equal(made, text) {
		t.Error(string(made), err)
	}
	if read, err := ReadPolicy(text); err != nil || fmt.Sprint(*read.VRFKey) != fmt.Sprint(*policy.VRFKey) || read.Origin != policy.Origin ||
		read.SigningKey != policy.SigningKey || read.EpochStart != 1767225600 || read.EpochPeriod != 3600 || read.ProofsKept != nil ||
		read.RecordsVouched != policy.RecordsVouched {
		t.Error(read, err)
	}
}

// The text that is read is the text that is made, and any other text is refused.
func TestTextsThatAreNoPolicies(t *testing.T) {
	long, short, vouched := texts(t)
	for number, edit := range []struct{ text, old, with string }{
		{long, "policy coniks-1", "policy coniks-2"}, {long, "policy coniks-1\n", ""}, {long, "\n", "\r\n"}, {long, "vrf ", "vrf  "},
		{long, "origin keys.example.com/directory", "origin "}, {long, "keys.example", "keys example"}, {long, "keys.", "k\x7fys."},
		{long, "keys.", "k\x00ys."}, {long, "keys.", "k\xffys."}, {long, "keys.", "ké."}, {long, "signature Ed25519\n", ""},
		{long, "Ed25519", "ed25519"}, {long, "d75a", "D75a"}, {long, "signing-key d7", "signing-key "}, {long, "signing-key ", "signing-key 00"},
		{long, "vrf-key 3d", "vrf-key "}, {long, "vrf ECVRF-EDWARDS25519-SHA512-TAI", "vrf none"}, {long, "SHA512-TAI", "SHA512-ELL2"},
		{long, "vrf-key", "vrf-Key"}, {long, "epoch-start 1767225600\n", ""}, {long, "epoch-period 3600\n", ""}, {long, "3600", "0"},
		{long, "3600", "03600"}, {long, "3600", "+3600"}, {long, "3600", "3600.0"}, {long, "3600", "18446744073709551616"}, {long, "3600", ""},
		{long, "1767225600", "01767225600"}, {long, "1767225600", "-1"}, {long, "1767225600", "00"}, {long, "evidence one-chain\n", ""},
		{long, "one-chain", "one-number"}, {long, "forever", "Forever"}, {long, "forever", ""}, {long, "proofs-kept forever\n", ""},
		{long, "forever\n", "forever"}, {long, "forever\n", "forever\n\n"}, {long, "forever\n", "forever\nmore\n"}, {long, "forever\n", "forever \n"},
		{long, "forever", "18446744073709551616"}, {short, "vrf none\n", ""}, {short, "vrf none\n", "vrf none\nvrf-key " + strings.Repeat("00", 32) + "\n"},
		{short, "proofs-kept 0", "proofs-kept 00"}, {short, "origin a\n", "origin a\norigin a\n"}, {short, "policy", " policy"},
		{short, "policy", "\ufeffpolicy"}, {short, "origin a", "origin " + strings.Repeat("a", 256)},
		{vouched, "records vouched\n", "records vouched\nrecords vouched\n"}, {vouched, "records vouched", "records any"},
		{vouched, "vouched\n", "vouched \n"}, {vouched, "records ", "records  "}, {vouched, "records vouched\n", "records\n"},
		{long, "evidence", "records vouched\nevidence"}, {long, "forever\n", "forever\nrecords vouched\n"},
		{long, "evidence one-chain\n", "records vouched\n"}, {long, "proofs-kept forever\n", "records vouched\n"},
	} {
		if wrong := strings.Replace(edit.text, edit.old, edit.with, 1); wrong == edit.text {
			t.Error("no edit:", number)
		} else if _, err := ReadPolicy([]byte(wrong)); err == nil {
			t.Error(wrong)
		}
	}
	chance := rand.New(rand.NewSource(1))
	for turn := 0; turn < 20000; turn++ {
		text := []byte([]string{long, short, vouched}[turn%3])
		for range [3]int{} {
			at := chance.Intn(len(text))
			if chance.Intn(3) > 0 {
				text[at] = "0123456789 \n.abf\xff-"[chance.Intn(18)]
			} else {
				text = append(append(append([]byte(nil), text[:at]...), text[at]), text[at:]...)
			}
		}
		if read, err := ReadPolicy(text); err != nil {
			continue
		} else if made, err := read.MarshalText(); err != nil || !bytes.Equal(made, text) {
			t.Errorf("%q is read as %q: %v", text, made, err)
		}
	}
}

func texts(t *testing.T) (long, short, vouched string) {
	var texts [3]string
	for at, policy := range []Policy{examplePolicy(), shortPolicy(), vouchedPolicy()} {
		text, err := policy.MarshalText()
		if err != nil {
			t.Fatal(err)
		}
		texts[at] = string(text)
	}
	return texts[0], texts[1], texts[2]
}

func TestLimitsOfAPolicy(t *testing.T) {
	largest := uint64(math.MaxUint64)
	it := examplePolicy()
	it.Origin, it.EpochStart, it.EpochPeriod, it.ProofsKept = strings.Repeat("~", 255), largest, largest, &largest
	text, err := it.MarshalText()
	if err != nil || strings.Count(string(text), "18446744073709551615") != 3 {
		t.Error(string(text), err)
	}
	if read, err := ReadPolicy(text); err != nil || read.EpochStart != largest || read.EpochPeriod != largest || *read.ProofsKept != largest {
		t.Error(read, err)
	}
	it.EpochStart = 0
	if text, err := it.MarshalText(); err != nil || !strings.Contains(string(text), "epoch-start 0\n") {
		t.Error(string(text), err)
	}
	for _, wrong := range []Policy{{}, {Origin: strings.Repeat("a", 256)}, {Origin: "a b"}, {Origin: "é"}, {Origin: "a\n"}, {Origin: "a", EpochStart: 1}} {
		if text, err := wrong.MarshalText(); err == nil {
			t.Error(string(text))
		}
		if _, err := wrong.Digest(); err == nil {
			t.Error(wrong)
		}
	}
	// After an error the policy is as it was.
	before := it
	if it.UnmarshalText([]byte("policy")) == nil || fmt.Sprint(it) != fmt.Sprint(before) {
		t.Error(it)
	}
}

func TestEpochAt(t *testing.T) {
	it := examplePolicy()
	start := time.Unix(1767225600, 0)
	for after, wanted := range map[time.Duration]uint64{
		0: 1, 1: 1, time.Hour - 1: 1, time.Hour: 2, 2*time.Hour - 1: 2, 24 * time.Hour: 25, 100 * 365 * 24 * time.Hour: 876001,
	} {
		for _, zone := range []*time.Location{time.UTC, time.FixedZone("east", 5*3600+1800)} {
			if epoch, err := it.EpochAt(start.Add(after).In(zone)); err != nil || epoch != wanted {
				t.Error(after, epoch, err)
			}
		}
	}
	for _, early := range []time.Time{start.Add(-1), time.Unix(0, 0), time.Unix(-1, 0), {}} {
		if epoch, err := it.EpochAt(early); err == nil || errors.Is(err, ErrNoClock) || epoch != 0 {
			t.Error(epoch, err)
		}
	}
	if _, err := shortPolicy().EpochAt(start); !errors.Is(err, ErrNoClock) {
		t.Error(err)
	}
	it.EpochStart, it.EpochPeriod = 0, 1
	if epoch, err := it.EpochAt(time.Unix(math.MaxInt64, 0)); err != nil || epoch != 1<<63 {
		t.Error(epoch, err)
	}
	it.EpochStart = math.MaxUint64
	if _, err := it.EpochAt(time.Unix(math.MaxInt64, 0)); err == nil {
		t.Error("a time before a late start")
	}
}
