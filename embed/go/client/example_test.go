package client_test

import (
	"encoding/hex"
	"encoding/json"
	"fmt"
	"log"
	"os"
	"time"

	"example.org/coniks"
	"example.org/coniks/client"
)

func good(err error) {
	if err != nil {
		log.Fatal(err)
	}
}

// The directory of docs/FORMATS.md: what it publishes, and what its service sends.
type directory struct {
	Policy, Reply, History string
	Entries                []string
}

// bytes is what the service sends.
func bytes(digits string) []byte {
	bytes, err := hex.DecodeString(digits)
	good(err)
	return bytes
}

// A client looks a name up.
func ExampleNew() {
	// What the directory publishes, what its service sends, and the key of the owner of the name.
	var document, catchUp, reply, myKey []byte

	policy, err := coniks.ReadPolicy(document) // what the directory publishes
	good(err)
	it, err := client.New(client.Settings{SigningKey: policy.SigningKey[:], VRFKey: policy.VRFKey[:], Policy: &policy})
	good(err)
	_, err = it.FeedCatchUp(catchUp) // all entries since the last one
	good(err)
	found, err := it.Lookup("alice", reply) // nil with an error
	good(err)
	fmt.Printf("%x\n", found.Key)                        // nil if alice has no key
	good(it.Watch("alice", myKey))                       // my own name: found.Seen is Same, Changed or Absent
	good(os.WriteFile("alice.state", it.State(), 0o600)) // and then client.Resume
}

// A client goes on from its state, looks its own name up, and asks for the epochs that are missing.
func ExampleResume() {
	var sent directory
	text, err := os.ReadFile("../testdata/messages.json")
	good(err)
	good(json.Unmarshal(text, &sent))
	policy, err := coniks.ReadPolicy([]byte(sent.Policy))
	good(err)
	settings := client.Settings{
		SigningKey: policy.SigningKey[:], VRFKey: policy.VRFKey[:], Policy: &policy,
		Clock: func() time.Time { return time.Unix(1767229260, 0) }, // leave it out for the present time
	}
	before, err := client.New(settings)
	good(err)
	good(before.Watch("alice", []byte("k")))
	for _, entry := range sent.Entries {
		_, err = before.FeedCatchUp(bytes(entry))
		good(err)
	}
	it, err := client.Resume(settings, before.State())
	good(err)
	found, err := it.Lookup("alice", bytes(sent.Reply))
	good(err)
	fmt.Printf("epoch %d, key %s, %v, began %v ago\n", found.Epoch, found.Key, found.Seen, found.Age)
	fmt.Println("missing:", it.Missing())
	if lost := it.Lost(); len(lost) > 0 {
		fmt.Println("epochs", lost, "can no longer be verified")
	}
	_, err = it.History("alice", bytes(sent.History))
	good(err)
	fmt.Println("missing:", it.Missing())
	_, err = it.Lookup("bob", bytes(sent.Reply))
	fmt.Println(err)
	// Output:
	// epoch 2, key k, same, began 1m0s ago
	// missing: [1]
	// missing: []
	// the VRF proof is not one of this name: ask for the reply again
}
