// Checks a proof, and audits an entry whose Ed25519 signature it verifies.
package main

import (
	"crypto/ed25519"
	"encoding/hex"
	"errors"
	"fmt"
	"os"

	"example.org/coniks"
)

func bytes(text string) []byte {
	bytes, err := hex.DecodeString(text)
	if err != nil {
		fmt.Fprintln(os.Stderr, err)
		os.Exit(2)
	}
	return bytes
}

func bytes32(text string) (out [32]byte) {
	copy(out[:], bytes(text))
	return out
}

// isSigned reports whether an entry is its body and a signature of the body, under a directory's public key of 32 bytes.
func isSigned(key ed25519.PublicKey, entry []byte) bool {
	return len(entry) == coniks.EntryBytes && ed25519.Verify(key, entry[:coniks.BodyBytes], entry[coniks.BodyBytes:])
}

func main() {
	if len(os.Args) != 8 {
		fmt.Fprintln(os.Stderr, "example KEY NONCE ROOT INDEX NAME PROOF ENTRY")
		os.Exit(2)
	}
	signer := bytes32(os.Args[1])
	nonce, root, index := bytes32(os.Args[2]), bytes32(os.Args[3]), bytes32(os.Args[4])
	name, proof, entry := os.Args[5], bytes(os.Args[6]), bytes(os.Args[7])
	key, err := coniks.Check(nonce, root, index, name, proof)
	switch {
	case err != nil:
		fmt.Println(err)
	case key == nil:
		fmt.Println("absent")
	default:
		fmt.Println(string(key))
	}
	_, err = coniks.Check(root, root, index, name, proof)
	fmt.Println(err)
	var auditor coniks.Auditor
	before := auditor
	forged := append([]byte{}, entry...)
	forged[len(forged)-1] ^= 1
	fmt.Println(auditor.Feed(forged, isSigned(signer[:], forged)))
	_, _, err = auditor.Head()
	fmt.Println("as it was:", auditor == before && errors.Is(err, coniks.ErrNoEntry))
	if err := auditor.Feed(entry, isSigned(signer[:], entry)); err != nil {
		fmt.Println(err)
		os.Exit(1)
	}
	epoch, _, _ := auditor.Head()
	fmt.Println("epoch", epoch)
}
