// Signs for `serve --signer SOCKET`, by a key in a file. docs/LINES.md ("Keys in other processes") defines the lines. Replace sign by a
// call of your HSM.
//
//	go run signer.go SOCKET SIGNING_KEY
package main

import (
	"bufio"
	"crypto/ed25519"
	"encoding/hex"
	"encoding/json"
	"log"
	"net"
	"os"
	"syscall"
)

var key ed25519.PrivateKey

// sign signs bodies of a directory alone, and nothing else by its key.
func sign(body []byte) []byte {
	if len(body) != 145 {
		return nil
	}
	return ed25519.Sign(key, body)
}

func replyTo(line []byte) map[string]string {
	var it struct{ Cmd, Body string }
	err := json.Unmarshal(line, &it)
	body, _ := hex.DecodeString(it.Body)
	if err == nil && it.Cmd == "signing-key" {
		return map[string]string{"key": hex.EncodeToString(key.Public().(ed25519.PublicKey))}
	}
	if signature := sign(body); err == nil && it.Cmd == "sign" && signature != nil {
		return map[string]string{"signature": hex.EncodeToString(signature)}
	}
	return map[string]string{"error": "the request is not one of a signer"}
}

func serve(connection net.Conn) {
	defer connection.Close()
	lines := bufio.NewScanner(connection)
	lines.Buffer(nil, 2048)
	for lines.Scan() {
		reply, _ := json.Marshal(replyTo(lines.Bytes()))
		connection.Write(append(reply, '\n'))
	}
}

func main() {
	seed, err := os.ReadFile(os.Args[2])
	if err != nil || len(seed) != ed25519.SeedSize {
		log.Fatal("a signing key has 32 bytes: ", err)
	}
	key = ed25519.NewKeyFromSeed(seed)
	os.Remove(os.Args[1])
	syscall.Umask(0o077)
	listener, err := net.Listen("unix", os.Args[1])
	for err == nil {
		var connection net.Conn
		if connection, err = listener.Accept(); err == nil {
			go serve(connection)
		}
	}
	log.Fatal(err)
}
