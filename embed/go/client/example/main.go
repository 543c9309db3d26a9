// Looks a name up, with what a key directory's service sent, and keeps the client's state in a file:
//
//	example POLICY STATE CATCH-UP NAME REPLY [EPOCH]
//
// POLICY, CATCH-UP and REPLY are files. STATE is a file that the first run makes. Without EPOCH the reply must be of the latest
// epoch, which the policy's clock must find fresh. It prints the key, or `no key`.
package main

import (
	"errors"
	"fmt"
	"io/fs"
	"os"
	"strconv"

	"example.org/coniks"
	"example.org/coniks/client"
)

// opened returns a client that goes on from the state in a file, or a new one if there is no file.
func opened(policyFile, stateFile string) (*client.Client, error) {
	text, err := os.ReadFile(policyFile)
	if err != nil {
		return nil, err
	}
	policy, err := coniks.ReadPolicy(text)
	if err != nil {
		return nil, err
	}
	settings := client.Settings{SigningKey: policy.SigningKey[:], Policy: &policy}
	if policy.VRFKey != nil {
		settings.VRFKey = policy.VRFKey[:]
	}
	state, err := os.ReadFile(stateFile)
	if errors.Is(err, fs.ErrNotExist) {
		return client.New(settings)
	}
	if err != nil {
		return nil, err
	}
	return client.Resume(settings, state)
}

// stored writes the state as a whole.
func stored(it *client.Client, file string) error {
	if err := os.WriteFile(file+".new", it.State(), 0o600); err != nil {
		return err
	}
	return os.Rename(file+".new", file)
}

// found looks a name up, at an epoch if one is asked.
func found(it *client.Client, name, replyFile string, epoch []string) (*client.Found, error) {
	reply, err := os.ReadFile(replyFile)
	if err != nil {
		return nil, err
	}
	if len(epoch) == 0 {
		return it.Lookup(name, reply)
	}
	number, err := strconv.ParseUint(epoch[0], 10, 64)
	if err != nil {
		return nil, err
	}
	return it.LookupAt(name, reply, number)
}

func run(words []string) (*client.Found, error) {
	it, err := opened(words[0], words[1])
	if err != nil {
		return nil, err
	}
	catchUp, err := os.ReadFile(words[2])
	if err != nil {
		return nil, err
	}
	if _, err := it.FeedCatchUp(catchUp); err != nil {
		return nil, err
	}
	result, err := found(it, words[3], words[4], words[5:])
	if err != nil {
		return nil, err
	}
	return result, stored(it, words[1])
}

func main() {
	if len(os.Args) != 6 && len(os.Args) != 7 {
		fmt.Fprintln(os.Stderr, "example POLICY STATE CATCH-UP NAME REPLY [EPOCH]")
		os.Exit(2)
	}
	result, err := run(os.Args[1:])
	if err != nil {
		fmt.Fprintln(os.Stderr, err)
		var refusal *client.Refusal
		if errors.As(err, &refusal) && refusal.Evidence != nil {
			fmt.Fprintf(os.Stderr, "evidence: %x %x\n", refusal.Evidence.Mine, refusal.Evidence.Other)
		}
		os.Exit(1)
	}
	if result.Key == nil {
		fmt.Println("no key")
		return
	}
	fmt.Printf("%x\n", result.Key)
}
