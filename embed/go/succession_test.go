package coniks

import (
	"bytes"
	"crypto/ed25519"
	"fmt"
	"os"
	"strings"
	"testing"
)

// The example of docs/FORMATS.md, "A succession".
func TestExampleOfASuccession(t *testing.T) {
	text, err := os.ReadFile("testdata/succession.txt")
	if err != nil {
		t.Fatal(err)
	}
	it, err := ReadSuccession(text)
	if err != nil {
		t.Fatal(err)
	}
	if signed := fmt.Sprintf("%ssignature %x\n", it.Lines(), it.Signature); signed != string(text) {
		t.Errorf("another text: %s", signed)
	}
	ending, goesOn := policyIn(t, "testdata/ending_policy.txt"), policyIn(t, "testdata/next_policy.txt")
	if digest, err := ending.Digest(); err != nil || digest != it.Policy {
		t.Errorf("it ends another policy: %x %v", digest, err)
	}
	if digest, err := goesOn.Digest(); err != nil || digest != it.NextPolicy || !goesOn.NoSuccessorKey || goesOn.SuccessorKey != nil {
		t.Errorf("another policy goes on: %x %v", digest, err)
	}
	if it.Last.Epoch != 2 || it.First.Epoch != 2 || !ed25519.Verify(ending.SuccessorKey[:], it.Lines(), it.Signature[:]) {
		t.Errorf("epochs or signature: %+v", it)
	}
}

// policyIn reads a policy document, which must be that of what is read.
func policyIn(t *testing.T, name string) Policy {
	t.Helper()
	text, err := os.ReadFile(name)
	if err != nil {
		t.Fatal(err)
	}
	it, err := ReadPolicy(text)
	if err != nil {
		t.Fatal(err)
	}
	if written, err := it.MarshalText(); err != nil || !bytes.Equal(written, text) {
		t.Errorf("%s: %s %v", name, written, err)
	}
	return it
}

func TestTextsThatAreNoSuccession(t *testing.T) {
	text, err := os.ReadFile("testdata/succession.txt")
	if err != nil {
		t.Fatal(err)
	}
	whole := string(text)
	for at := 0; at < len(whole); at++ {
		if _, err := ReadSuccession(text[:at]); err == nil {
			t.Errorf("cut after %d bytes", at)
		}
	}
	for old, other := range map[string]string{
		"coniks-1": "coniks-2", "last-epoch 2": "last-epoch 0", "first-epoch 2": "first-epoch 18446744073709551616",
		"last-epoch": "first-epoch", "signature 0": "signature 0A", "next-policy 2f": "next-policy 2F", "\n": "\r\n",
	} {
		if changed := strings.Replace(whole, old, other, 1); changed == whole {
			t.Errorf("%q is not there", old)
		} else if _, err := ReadSuccession([]byte(changed)); err == nil {
			t.Errorf("%q in place of %q", other, old)
		}
	}
}

// A policy has one successor key, or says that there is none, and the key is another one than that of signatures.
func TestSuccessorKeys(t *testing.T) {
	it := examplePolicy()
	it.SuccessorKey = &it.SigningKey
	if _, err := it.MarshalText(); err == nil {
		t.Error("the signing key is a successor key")
	}
	it.SuccessorKey, it.NoSuccessorKey = it.VRFKey, true
	if _, err := it.Digest(); err == nil {
		t.Error("there is a successor key, and none")
	}
}
