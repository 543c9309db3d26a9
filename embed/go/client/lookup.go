package client

// #include <coniks_core.h>
import "C"

import (
	"time"

	"example.org/coniks"
)

// Found is what an accepted reply shows of a name at an epoch.
type Found struct {
	Epoch uint64
	// Key is the name's key, which has at least one byte. It is nil if the name is bound to none. Equal keys of one history may be
	// one slice.
	Key []byte
	// Seen is what this is for the watched name, Unwatched for another one.
	Seen Watched
	// Age is how long ago the epoch began by the policy's clock, nil without a clock. One that a time.Duration can't express is the
	// longest one, as in time.Time.Sub.
	Age *time.Duration
	// FirstSeen is the Unix time in seconds at which the client accepted the entry.
	FirstSeen uint64
}

// Lookup returns what a reply shows of a name at the latest epoch. It returns nil with a *Refusal.
func (c *Client) Lookup(name string, reply []byte) (*Found, error) {
	return c.lookup(name, reply, nil)
}

// LookupAt is Lookup at an older epoch, or the latest one by its number: it does not check how old that is. The number is one that
// the caller has chosen, never that of the reply.
func (c *Client) LookupAt(name string, reply []byte, epoch uint64) (*Found, error) {
	return c.lookup(name, reply, &epoch)
}

func (c *Client) lookup(name string, whole []byte, epoch *uint64) (*Found, error) {
	defer c.locked()()
	var in arena
	defer in.free()
	reply := in.bytes(whole)
	status, needs := c.memory.replyNeeds(reply)
	if status != 0 {
		return nil, refusal(Cause(status))
	}
	now, err := c.clock.now()
	if err != nil {
		return nil, err
	}
	verdicts := c.replyVerdicts(name, reply, needs)
	status, shown, why := c.memory.lookup(name, reply, epoch, seconds(now), verdicts)
	if err := c.accepted(status, why, part(reply, needs.entry_start, coniks.EntryBytes)); err != nil {
		return nil, err
	}
	found := c.found(shown, now)
	return &found, nil
}

// History returns what a history shows of a name, for each of its epochs in their order. It returns nil with a *Refusal, and then
// keeps nothing of the history.
func (c *Client) History(name string, whole []byte) ([]Found, error) {
	defer c.locked()()
	var in arena
	defer in.free()
	history := in.bytes(whole)
	status, needs := historyNeeds(history)
	if status != 0 {
		return nil, refusal(Cause(status))
	}
	now, err := c.clock.now()
	if err != nil {
		return nil, err
	}
	verdicts := c.indexVerdict(name, part(history, needs.vrf_start, needs.vrf_length))
	status, steps := c.memory.history(name, history, verdicts)
	if status != 0 {
		return nil, refusal(Cause(status))
	}
	found := make([]Found, 0, len(steps))
	for _, step := range steps {
		found = append(found, c.found(step, now))
	}
	return found, nil
}

// found returns what is shown, with what the client knows of its epoch.
func (c *Client) found(what shown, now time.Time) Found {
	epoch := c.memory.epochAt(what.place)
	return Found{epoch, what.key, what.seen, c.memory.duration(epoch, now), c.memory.firstSeenAt(what.place)}
}
