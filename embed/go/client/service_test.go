package client

import (
	"encoding/hex"
	"os"
	"testing"
	"time"

	"example.org/coniks"
)

// messages are what a provider in Python returned.
type messages struct {
	Policy, CatchUp, Name, Reply, History string // of the name
	NoKey, Absent                         string // a name without a key, and its reply
	Epochs                                []uint64
	Keys                                  []string // the name's key at each epoch
}

// What a provider in Python returns is what a client takes. The variable CONIKS_MESSAGES names a file that embed/tests/messages.py
// has written.
func TestPythonToClient(t *testing.T) {
	file := os.Getenv("CONIKS_MESSAGES")
	if file == "" {
		t.Skip("CONIKS_MESSAGES names no file of embed/tests/messages.py")
	}
	var it messages
	readJSON(t, file, &it)
	policy, err := coniks.ReadPolicy([]byte(it.Policy))
	good(t, err)
	last := it.Epochs[len(it.Epochs)-1]
	now := time.Unix(int64(policy.EpochStart+(last-1)*policy.EpochPeriod), 0)
	made, err := New(Settings{
		SigningKey: policy.SigningKey[:], VRFKey: policy.VRFKey[:], Policy: &policy, Clock: func() time.Time { return now },
	})
	good(t, err)
	steps, err := made.FeedCatchUp(unhex(t, it.CatchUp))
	if err != nil || len(steps) != len(it.Epochs) {
		t.Fatal(steps, err)
	}
	found, err := made.Lookup(it.Name, unhex(t, it.Reply))
	if err != nil || hex.EncodeToString(found.Key) != it.Keys[len(it.Keys)-1] || found.Epoch != last {
		t.Error(found, err)
	}
	if absent, err := made.Lookup(it.NoKey, unhex(t, it.Absent)); err != nil || absent.Key != nil {
		t.Error(absent, err)
	}
	all, err := made.History(it.Name, unhex(t, it.History))
	if err != nil || len(all) != len(it.Epochs) {
		t.Fatal(all, err)
	}
	for at, found := range all {
		if found.Epoch != it.Epochs[at] || hex.EncodeToString(found.Key) != it.Keys[at] {
			t.Error(found)
		}
	}
}
