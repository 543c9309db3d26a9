// Replies to the requests of embed/tests/client_sides.py, one on each line, over package client.
package main

import (
	"bufio"
	"encoding/hex"
	"errors"
	"fmt"
	"os"
	"strconv"
	"strings"
	"time"

	"example.org/coniks"
	"example.org/coniks/client"
)

// errMisuse is an error in a request that the types of package client rule out.
var errMisuse = errors.New("a call that the caller must not make")

// program has the client of the last `begin` or `vouched`, nil if that refused, and its clock.
type program struct {
	client *client.Client
	now    time.Time
	// The trust document that the next client names.
	trust *client.Trust
}

// data reads bytes, nil for `-`.
func data(word string) []byte {
	if word == "-" {
		return nil
	}
	bytes, err := hex.DecodeString(strings.TrimSuffix(word, "."))
	if err != nil {
		panic(err)
	}
	return bytes
}

func number(word string) uint64 {
	value, err := strconv.ParseUint(word, 10, 64)
	if err != nil {
		panic(err)
	}
	return value
}

// seconds reads a duration, nil for `-`.
func seconds(word string) *time.Duration {
	if word == "-" {
		return nil
	}
	duration := time.Duration(number(word)) * time.Second
	return &duration
}

// headOf reads a head. A link of another length can't be passed.
func headOf(epoch, link string) (head coniks.Head, err error) {
	bytes := data(link)
	if len(bytes) != len(head.Link) {
		return head, errMisuse
	}
	head.Epoch = number(epoch)
	copy(head.Link[:], bytes)
	return head, nil
}

// settings reads the first six words of `begin` and `vouched`, and sets the clock.
func (p *program) settings(words []string) (client.Settings, error) {
	p.client, p.now = nil, time.Unix(int64(number(words[0])), 0)
	return p.published(words[1:])
}

// published reads limits, keys and policy, and takes the trust document.
func (p *program) published(words []string) (client.Settings, error) {
	trust := p.trust
	p.trust = nil
	policy, err := coniks.ReadPolicy(data(words[4]))
	return client.Settings{
		MaxAge: seconds(words[0]), Skew: seconds(words[1]), SigningKey: data(words[2]), VRFKey: data(words[3]), Policy: &policy,
		Clock: func() time.Time { return p.now }, Trust: trust,
	}, err
}

// succeed goes on in another directory, in which the later requests are answered.
func (p *program) succeed(words []string) (string, error) {
	settings, err := p.published(words)
	if err != nil {
		return "", err
	}
	succession, err := coniks.ReadSuccession(data(words[5]))
	if err != nil {
		return "", err
	}
	succeeded, err := p.client.Succeed(succession, settings, data(words[6]))
	if err != nil {
		return "", err
	}
	var void []uint64
	for _, entry := range succeeded.Void {
		body, err := coniks.BodyOf(entry)
		if err != nil {
			return "", err
		}
		void = append(void, body.Epoch)
	}
	p.client = succeeded.Client
	return epochWords("void", void), nil
}

func (p *program) begin(words []string) (string, error) {
	settings, err := p.settings(words)
	if err != nil {
		return "", err
	}
	if state := data(words[6]); state != nil {
		p.client, err = client.Resume(settings, state)
	} else {
		p.client, err = client.New(settings)
	}
	return "begun", err
}

func (p *program) vouched(words []string) (string, error) {
	settings, err := p.settings(words)
	if err != nil {
		return "", err
	}
	heads := map[string]coniks.Head{}
	for at, word := range words[8:] {
		epoch, link, _ := strings.Cut(word, ":")
		if heads[strconv.Itoa(at)], err = headOf(epoch, link); err != nil {
			return "", err
		}
	}
	p.client, err = client.Vouched(settings, data(words[6]), heads, int(number(words[7])))
	return "begun", err
}

func seenWord(seen client.Watched) string {
	if seen == client.Unwatched {
		return "-"
	}
	return seen.String()
}

func fed(steps []client.Step, err error) (string, error) {
	text := "fed"
	for _, step := range steps {
		text += fmt.Sprintf(" %d:%s", step.Epoch, seenWord(step.Seen))
	}
	return text, err
}

func (p *program) feed(words []string) (string, error) {
	var entries [][]byte
	for _, word := range words {
		entries = append(entries, data(word))
	}
	return fed(p.client.Feed(entries))
}

func keyWord(key []byte) string {
	switch {
	case key == nil:
		return "-"
	case len(key) == 0:
		return "."
	}
	return hex.EncodeToString(key)
}

func ageWord(age *time.Duration) string {
	switch {
	case age == nil:
		return "-"
	case *age%time.Second == 0:
		return strconv.FormatInt(int64(*age/time.Second), 10)
	}
	return fmt.Sprintf("%.9f", age.Seconds())
}

func foundWords(found client.Found) string {
	return fmt.Sprintf(" %d %s %s %s %d", found.Epoch, keyWord(found.Key), seenWord(found.Seen), ageWord(found.Age), found.FirstSeen)
}

func (p *program) lookup(words []string) (string, error) {
	name, reply := string(data(words[0])), data(words[1])
	var found *client.Found
	var err error
	if words[2] == "-" {
		found, err = p.client.Lookup(name, reply)
	} else {
		found, err = p.client.LookupAt(name, reply, number(words[2]))
	}
	if err != nil {
		return "", err
	}
	return "found" + foundWords(*found), nil
}

func (p *program) history(words []string) (string, error) {
	all, err := p.client.History(string(data(words[0])), data(words[1]))
	text := "found"
	for _, found := range all {
		text += foundWords(found)
	}
	return text, err
}

func (p *program) watch(words []string) (string, error) {
	name, key := string(data(words[0])), data(words[1])
	if words[2] == "-" {
		return "watching", p.client.Watch(name, key)
	}
	return "watching", p.client.WatchSince(name, key, number(words[2]))
}

// epochWords is a word and the epochs after it.
func epochWords(word string, epochs []uint64) string {
	for _, epoch := range epochs {
		word += fmt.Sprintf(" %d", epoch)
	}
	return word
}

func (p *program) head() string {
	if head := p.client.Head(); head != nil {
		return fmt.Sprintf("head %d %x", head.Epoch, head.Link)
	}
	return "head -"
}

// compare makes a call with a head.
func compare(words []string, call func(coniks.Head) client.Comparison) (string, error) {
	head, err := headOf(words[0], words[1])
	if err != nil {
		return "", err
	}
	return call(head).String(), nil
}

func evidenceWords(evidence *client.Evidence) string {
	if evidence == nil {
		return "-"
	}
	kinds := map[coniks.EvidenceKind]string{
		coniks.Overlap: "overlap", coniks.OtherPolicy: "other-policy", coniks.Malformed: "malformed",
	}
	return fmt.Sprintf("%s %x %x", kinds[evidence.Kind], evidence.Mine, evidence.Other)
}

// refused is the reply for an error.
func refused(err error) string {
	var it *client.Refusal
	if !errors.As(err, &it) {
		return "misuse"
	}
	status := "-"
	if it.Status != 0 {
		status = strconv.FormatUint(uint64(it.Status), 10)
	}
	return fmt.Sprintf("refused %v %s %s", it.Cause, status, evidenceWords(it.Evidence))
}

// setTrust reads the trust document of the next client.
func (p *program) setTrust(words []string) {
	p.trust = &client.Trust{Auditors: uint32(number(words[1])), Faulty: uint32(number(words[2]))}
	copy(p.trust.Digest[:], data(words[0]))
}

func (p *program) mark(words []string) (string, error) {
	head, err := headOf(words[1], words[2])
	if err != nil {
		return "", err
	}
	found, err := p.client.Mark(int(number(words[0])), head)
	return found.String(), err
}

func (p *program) confirmed() string {
	if epoch, isThere := p.client.Confirmed(); isThere {
		return fmt.Sprintf("confirmed %d", epoch)
	}
	return "confirmed -"
}

func (p *program) alarms() string {
	text := "alarms"
	for _, alarm := range p.client.Alarms() {
		text += fmt.Sprintf(" %d:%v", alarm.Epoch, alarm.Seen)
	}
	return text
}

func (p *program) report() (string, error) {
	report, err := p.client.Report()
	return fmt.Sprintf("report %v %d %d", report.Verdict, report.First, report.Last), err
}

// answer makes the call of a request.
func (p *program) answer(word string, words []string) (string, error) {
	switch word {
	case "begin":
		return p.begin(words)
	case "vouched":
		return p.vouched(words)
	case "succeed":
		return p.succeed(words)
	case "now":
		p.now = time.Unix(int64(number(words[0])), 0)
		return "set", nil
	case "feed":
		return p.feed(words)
	case "catchup":
		return fed(p.client.FeedCatchUp(data(words[0])))
	case "lookup":
		return p.lookup(words)
	case "history":
		return p.history(words)
	case "watch":
		return p.watch(words)
	case "expect":
		return "expected", p.client.Expect(data(words[0]), number(words[1]))
	case "missing":
		return epochWords(word, p.client.Missing()), nil
	case "lost":
		return epochWords(word, p.client.Lost()), nil
	case "head":
		return p.head(), nil
	case "compare":
		return compare(words, p.client.Compare)
	case "cover":
		return compare(words, p.client.Cover)
	case "evidence":
		evidence, err := p.client.Evidence(data(words[0]))
		return "evidence " + evidenceWords(evidence), err
	case "state":
		return fmt.Sprintf("state %x", p.client.State()), nil
	case "trust":
		p.setTrust(words)
		return "set", nil
	case "mark":
		return p.mark(words)
	case "confirmed":
		return p.confirmed(), nil
	case "drop":
		return epochWords("dropped", p.client.Drop()), nil
	case "note":
		p.client.Note(number(words[0]))
		return p.alarms(), nil
	case "alarms":
		return p.alarms(), nil
	case "report":
		return p.report()
	}
	return "", errMisuse
}

func main() {
	it, lines, out := &program{}, bufio.NewReader(os.Stdin), bufio.NewWriter(os.Stdout)
	for {
		line, err := lines.ReadString('\n')
		if err != nil {
			return
		}
		words := strings.Fields(line)
		text, err := it.answer(words[0], words[1:])
		if err != nil {
			text = refused(err)
		}
		fmt.Fprintln(out, text)
		out.Flush()
	}
}
