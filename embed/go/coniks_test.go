package coniks

import (
	"crypto/ed25519"
	"encoding/hex"
	"errors"
	"testing"
)

// SHA-256 of the byte 45 and 66 zero bytes: the root of an empty tree under a nonce of zeros (docs/FORMATS.md).
const emptyRoot = "55fd25353b36d9c01e73d41e753758330f06b9d6a0838d0c60cdeb295cc1c32a"

// SHA-256 of the byte 53 and 209 zero bytes.
const zerosLink = "ecc9742501e7f52de4a640c0a9b7d540219a5f764d229a40ee1dd1a50bd184e0"

func array32(text string) (out [32]byte) {
	hex.Decode(out[:], []byte(text))
	return out
}

func TestCheckShowsAbsence(t *testing.T) {
	key, err := Check([32]byte{}, array32(emptyRoot), [32]byte{7}, "alice", []byte{0, 0, 0})
	if key != nil || err != nil {
		t.Fatal(key, err)
	}
}

func TestCheckRefuses(t *testing.T) {
	for _, it := range []struct {
		name  string
		proof []byte
		want  error
	}{
		{"alice", nil, ErrNoBytes},
		{"alice", []byte{3, 0, 0}, ErrUnknownKind},
		{"alice", []byte{0, 0, 0, 0}, ErrBytesFollow},
		{"", []byte{0, 0, 0}, ErrNameLength},
	} {
		if _, err := Check([32]byte{}, array32(emptyRoot), [32]byte{7}, it.name, it.proof); !errors.Is(err, it.want) {
			t.Error(it.proof, err)
		}
	}
}

func TestLink(t *testing.T) {
	if link, err := Link(make([]byte, EntryBytes)); link != array32(zerosLink) || err != nil {
		t.Fatal(link, err)
	}
	if _, err := Link(make([]byte, 208)); !errors.Is(err, ErrEntryLength) {
		t.Fatal(err)
	}
}

func TestAuditorIsUnchangedAfterAnError(t *testing.T) {
	var auditor Auditor
	if err := auditor.Feed(make([]byte, EntryBytes), true); !errors.Is(err, ErrVersionUnknown) {
		t.Fatal(err)
	}
	if _, _, err := auditor.Head(); !errors.Is(err, ErrNoEntry) || auditor != Resume([StateBytes]byte{}) {
		t.Fatal(err, auditor)
	}
}

// The first entry of an empty tree, under a nonce of zeros, and the key with which it is signed.
func signedEntry() ([]byte, ed25519.PublicKey) {
	private := ed25519.NewKeyFromSeed(make([]byte, ed25519.SeedSize))
	body := Body{Version: 1, Epoch: 1, Root: array32(emptyRoot)}.Bytes()
	return append(body[:], ed25519.Sign(private, body[:])...), private.Public().(ed25519.PublicKey)
}

func TestStepReturnsNoResultWithAnError(t *testing.T) {
	entry, key := signedEntry()
	forged := append([]byte{}, entry...)
	forged[EntryBytes-1] ^= 1
	isSigned := func(entry []byte) bool { return ed25519.Verify(key, entry[:BodyBytes], entry[BodyBytes:]) }
	absence := []byte{0, 0, 0}
	var monitor Monitor
	for _, it := range []struct {
		entry, proof []byte
		name         string
		want         error
	}{
		{forged, absence, "alice", ErrSignature},
		{entry, nil, "alice", ErrNoBytes},
		{entry, absence, "", ErrNameLength},
	} {
		monitor = Monitor{Name: it.name, Index: [32]byte{7}}
		seen, err := monitor.Step(it.entry, isSigned(it.entry), it.proof)
		if seen != 0 || seen == Same || !errors.Is(err, it.want) || monitor.Auditor != (Auditor{}) {
			t.Error(seen, err)
		}
	}
	for _, it := range []struct {
		expected []byte
		want     Seen
	}{{nil, Same}, {[]byte("key"), Absent}} {
		monitor = Monitor{Name: "alice", Index: [32]byte{7}, Expected: it.expected}
		if seen, err := monitor.Step(entry, isSigned(entry), absence); seen != it.want || err != nil {
			t.Error(seen, err)
		}
	}
}

func TestTextsOfSeen(t *testing.T) {
	var unset Seen
	for seen, want := range map[Seen]string{unset: "invalid", Same: "same", Absent: "absent", Changed: "changed", 99: "Seen(99)"} {
		if seen.String() != want {
			t.Error(seen.String(), want)
		}
	}
}
