package client

// #include <coniks_core.h>
import "C"

import "example.org/coniks"

// Step is an entry that was accepted: its epoch, and Missing if that must show the watched name, until a reply does. One that is signed
// again has what was seen of its epoch.
type Step struct {
	Epoch uint64
	Seen  Watched
}

// Comparison is whether a head is one of the client's chain. One that differs convicts nobody: fetch its entry, and call Evidence.
type Comparison uint8

const (
	// Equal means that the client keeps an entry with this epoch and link.
	Equal Comparison = iota + 1
	// Unknown means that the client keeps no entry that covers the epoch.
	Unknown
	// Differs means that the client keeps another entry that covers the epoch.
	Differs
)

// Feed accepts entries that continue the chain, 209 bytes each, or the latest one signed again. It returns a *Refusal at the first one that
// does not, and no steps; the entries before it are kept. After PreviousLink get the latest entry once more, and feed it before the next
// one: it may have been signed again.
func (c *Client) Feed(entries [][]byte) ([]Step, error) {
	defer c.locked()()
	steps := make([]Step, 0, len(entries))
	for _, entry := range entries {
		if err := c.accept(entry, c.memory.feed); err != nil {
			return nil, err
		}
		steps = append(steps, Step{c.memory.latestEpoch(), c.memory.seenAt(c.memory.count() - 1)})
	}
	return steps, nil
}

// FeedCatchUp accepts the entries of a catch-up, as Feed does. Bytes that are no catch-up are refused as a whole.
func (c *Client) FeedCatchUp(catchUp []byte) ([]Step, error) {
	entries, status := entriesOf(catchUp)
	if status != 0 {
		return nil, refusal(Cause(status))
	}
	return c.Feed(entries)
}

// accept verifies an entry, and lets the core take it.
func (c *Client) accept(given []byte, take taking) error {
	var in arena
	defer in.free()
	entry := in.bytes(given)
	now, err := c.clock.now()
	if err != nil {
		return err
	}
	status, why := take(c.received(entry, seconds(now)))
	return c.accepted(status, why, entry)
}

// accepted returns what a status says of an entry, with what convicts together with it.
func (c *Client) accepted(status C.uint32_t, why C.coniks_why, entry []byte) error {
	switch status {
	case 0:
		return nil
	case manyHeads:
		return c.memory.misuse(status, "")
	}
	err := refusal(Cause(status))
	if why.status != 0 {
		err.Status = coniks.Refused(why.status)
	}
	err.Evidence = c.evidence(why, entry)
	return err
}

// evidence returns what convicts together with an entry, nil if nothing does.
func (c *Client) evidence(why C.coniks_why, entry []byte) *Evidence {
	if why.kind == 0 {
		return nil
	}
	mine := copied(entry)
	if place := int(why.mine); place >= 0 && place < c.memory.count() {
		mine = c.memory.entryAt(place)
	}
	return &Evidence{Mine: mine, Other: copied(entry), Kind: coniks.EvidenceKind(why.kind)}
}

// Entries returns the entries that are stored, in the order of the chain.
func (c *Client) Entries() [][]byte {
	defer c.locked()()
	entries := make([][]byte, 0, c.memory.count())
	for place := 0; place < c.memory.count(); place++ {
		entries = append(entries, c.memory.entryAt(place))
	}
	return entries
}

// Head returns the epoch and the link of the latest entry, nil before the first.
func (c *Client) Head() *coniks.Head {
	defer c.locked()()
	if c.memory.count() == 0 {
		return nil
	}
	link, err := coniks.Link(c.memory.entryAt(c.memory.count() - 1))
	if err != nil {
		return nil
	}
	return &coniks.Head{Epoch: c.memory.latestEpoch(), Link: link}
}

// Compare returns whether a head is one of the chain, as far as its entries are kept.
func (c *Client) Compare(head coniks.Head) Comparison {
	defer c.locked()()
	return Comparison(c.memory.compare(head))
}

// Cover drops the entries before that of an auditor's head, if Compare finds it equal: the auditor's chain has them. Epochs that are
// missing and not lost stay, with what follows them. Each dropped watched epoch that was not the same leaves an alarm. With Trust in the
// Settings it only compares, since one auditor confirms nothing: call Mark and Drop.
func (c *Client) Cover(head coniks.Head) Comparison {
	defer c.locked()()
	found := Comparison(c.memory.compare(head))
	if found == Equal && c.memory.core.rules.quorum == 0 {
		c.memory.coverBy(seconds(c.clock()), head)
	}
	return found
}

// Evidence returns what convicts the provider together with another one's entry, nil if nothing does. It returns a *Refusal if the
// entry is not signed.
func (c *Client) Evidence(otherEntry []byte) (*Evidence, error) {
	defer c.locked()()
	var in arena
	defer in.free()
	entry := in.bytes(otherEntry)
	status, why := c.memory.evidence(c.received(entry, 0))
	if status != noEvidence {
		return c.evidence(why, entry), refused(status)
	}
	return alone(entry)
}

// alone returns what an entry convicts the provider of by itself, nil if a chain can have it.
func alone(entry []byte) (*Evidence, error) {
	kind, err := coniks.Convicts(entry, entry)
	if err != nil || kind == coniks.NoEvidence {
		return nil, err
	}
	return &Evidence{Mine: copied(entry), Other: copied(entry), Kind: kind}, nil
}
