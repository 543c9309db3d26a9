// Replies to the requests of embed/tests/sides.py, one on each line.
package main

import (
	"bufio"
	"encoding/hex"
	"fmt"
	"os"
	"strconv"
	"strings"

	"example.org/coniks"
)

var (
	auditor coniks.Auditor
	monitor coniks.Monitor
)

func bytes(word string) []byte {
	bytes, err := hex.DecodeString(strings.TrimPrefix(word, "-"))
	if err != nil {
		panic(err)
	}
	return bytes
}

func bytes32(word string) (out [32]byte) {
	copy(out[:], bytes(word))
	return out
}

// said is the result of a call, or the number of its error.
func message(err error, answer string) string {
	if refused, is := err.(coniks.Refused); is {
		return fmt.Sprintf("refused %d", uint32(refused))
	}
	return answer
}

func check(words []string) string {
	key, err := coniks.Check(bytes32(words[0]), bytes32(words[1]), bytes32(words[2]), string(bytes(words[3])), bytes(words[4]))
	if err == nil && key == nil {
		return "absent"
	}
	if cap(key) != len(key) {
		return "a key with room behind it"
	}
	return message(err, fmt.Sprintf("key %x", key))
}

func body(entry []byte) string {
	it, err := coniks.BodyOf(entry)
	return message(err, fmt.Sprintf("%d %d %d %x %x %x %x %x", it.Version, it.Epoch, it.PreviousEpoch, it.Root, it.PreviousLink,
		it.Nonce, it.Policy, it.Bytes()))
}

func answer(word string, words []string) string {
	switch word {
	case "check":
		return check(words)
	case "begin":
		auditor.Reset()
		return fmt.Sprintf("%x", auditor.State())
	case "feed":
		return message(auditor.Feed(bytes(words[0]), words[1] == "1"), "follows")
	case "head":
		epoch, link, err := auditor.Head()
		return message(err, fmt.Sprintf("%d %x", epoch, link))
	case "resume":
		auditor = coniks.Resume(auditor.State())
		return fmt.Sprintf("%x", auditor.State())
	case "watch":
		monitor = coniks.Monitor{Name: string(bytes(words[0])), Index: bytes32(words[1])}
		return "watched"
	case "expect":
		monitor.Expected = bytes(words[0])
		return "expected"
	case "step":
		monitor.Auditor = coniks.Resume(monitor.Auditor.State())
		seen, err := monitor.Step(bytes(words[0]), words[1] == "1", bytes(words[2]))
		if (err == nil) == (seen == 0) {
			return "an error with a result, or neither"
		}
		return message(err, seen.String())
	case "convicts":
		kind, err := coniks.Convicts(bytes(words[0]), bytes(words[1]))
		return message(err, fmt.Sprint(uint32(kind)))
	case "link":
		link, err := coniks.Link(bytes(words[0]))
		return message(err, fmt.Sprintf("%x", link))
	case "body":
		return body(bytes(words[0]))
	case "text":
		number, _ := strconv.ParseUint(words[0], 10, 32)
		return coniks.Text(uint32(number))
	}
	return coniks.Version()
}

func main() {
	lines := bufio.NewScanner(os.Stdin)
	lines.Buffer(nil, 1<<20)
	out := bufio.NewWriter(os.Stdout)
	defer out.Flush()
	for lines.Scan() {
		words := strings.Fields(lines.Text())
		fmt.Fprintln(out, answer(words[0], words[1:]))
	}
}
