package client

// #include <coniks_core.h>
import "C"

import "example.org/coniks"

// Watched is what an epoch shows of the watched name.
type Watched uint8

const (
	// Unwatched means that no name is watched, or another one, or that the epoch is before the first watched one.
	Unwatched Watched = iota
	// Same means that the epoch shows the expected key, or none if none is expected.
	Same
	_
	// Changed means that the epoch shows another key, or a key though none is expected.
	Changed
	// Absent means that the epoch shows no key, though one is expected.
	Absent
	// Missing means that no reply for the epoch was accepted.
	Missing
)

// Alarm is an epoch of the watched name that was dropped, and not seen as the same: Changed, Absent, or Missing if it was lost.
type Alarm struct {
	Epoch uint64
	Seen  Watched
}

// Verdict is what a client reports of the watched name: the first of these that applies.
type Verdict uint8

const (
	// ReportChanged means that the epoch shows another key, or no key.
	ReportChanged Verdict = iota + 1
	// ReportMissing means that the stored epoch is missing, and not lost.
	ReportMissing
	// ReportLost means that the epoch is lost.
	ReportLost
	// ReportUnwatched means that no stored epoch is watched.
	ReportUnwatched
	// ReportUnconfirmed means that each epoch shows the expected key, but that no quorum of auditors confirms the latest one.
	ReportUnconfirmed
	// ReportGood means that each epoch shows the expected key, and that a quorum of auditors confirms all of them.
	ReportGood
)

// Report is what to tell the owner of the watched name, and the first and the last epoch that it is about, 0 for ReportUnwatched.
type Report struct {
	Verdict     Verdict
	First, Last uint64
}

// isEmpty reports whether an expected key has no byte, which no accepted proof shows. The core takes it for none.
func isEmpty(key []byte) bool { return key != nil && len(key) == 0 }

// Watch watches the client's own name: each epoch from the latest on, from 1 on without an entry, must show the key, or none if it is
// nil. A client watches one name for its life. The same call once more changes nothing; one with another name or key returns an
// error.
func (c *Client) Watch(name string, key []byte) error { return c.watchFrom(name, key, nil) }

// WatchSince is Watch from an epoch on.
func (c *Client) WatchSince(name string, key []byte, since uint64) error {
	return c.watchFrom(name, key, &since)
}

func (c *Client) watchFrom(name string, key []byte, since *uint64) error {
	defer c.locked()()
	if isEmpty(key) && len(name) > 0 && len(name) <= maxName {
		return errEmptyKey
	}
	return c.memory.misuse(c.memory.beginWatch(name, key, since), name)
}

// Expect expects the owner's own change of the key, to none if it is nil: later epochs may show the old or the new key, and from
// epoch `by` on only the new one. No epoch may show the old key after one that showed the new key. It returns an error if no name is
// watched, and while another change is open: until the chain has its epoch `by` or a later one, or an epoch showed its key.
func (c *Client) Expect(key []byte, by uint64) error {
	defer c.locked()()
	if isEmpty(key) && c.memory.core.watch.is_watched == 1 {
		return errEmptyKey
	}
	return c.memory.misuse(c.memory.expect(key, by), "")
}

// Missing returns the epochs that must show the watched name, and of which no reply was accepted.
func (c *Client) Missing() []uint64 {
	defer c.locked()()
	return c.missing(func(int) bool { return true })
}

// Lost returns the missing epochs of which the policy promises no proof any more, by the Clock of the Settings. Report that they can
// no longer be verified, never that they are the same.
func (c *Client) Lost() []uint64 {
	defer c.locked()()
	now := seconds(c.clock())
	return c.missing(func(place int) bool { return c.memory.isLost(now, place) })
}

// missing returns the missing epochs at some places.
func (c *Client) missing(isWanted func(place int) bool) (epochs []uint64) {
	for place := 0; place < c.memory.count(); place++ {
		if c.memory.seenAt(place) == Missing && isWanted(place) {
			epochs = append(epochs, c.memory.epochAt(place))
		}
	}
	return epochs
}

// Alarms returns the alarms of dropped epochs, until their owner takes note of them.
func (c *Client) Alarms() []Alarm {
	defer c.locked()()
	var alarms []Alarm
	for _, one := range c.memory.alarms() {
		alarms = append(alarms, Alarm{uint64(one.epoch), Watched(one.seen)})
	}
	return alarms
}

// Note takes note of the alarms up to an epoch, which the owner has seen: they are dropped.
func (c *Client) Note(epoch uint64) {
	defer c.locked()()
	c.memory.note(epoch)
}

// Report returns what to tell the owner of the watched name, or an error if none is watched. Without Trust in the Settings it is never
// ReportGood.
func (c *Client) Report() (Report, error) {
	defer c.locked()()
	status, report := c.memory.report(seconds(c.clock()))
	if err := c.memory.misuse(status, ""); err != nil {
		return Report{}, err
	}
	return Report{Verdict(report.verdict), uint64(report.from), uint64(report.to)}, nil
}

// Mark compares a head that an auditor cosigned, as Compare does, and remembers its epoch if they are equal. The auditor is the one at
// this place of the trust document, from 0 on. Verify the cosignature first. It returns an error if there is no such auditor.
func (c *Client) Mark(auditor int, head coniks.Head) (Comparison, error) {
	defer c.locked()()
	found := c.memory.markHead(auditor, head)
	if found == noAuditor {
		return 0, c.memory.misuse(found, "")
	}
	return Comparison(found), nil
}

// Confirmed returns the latest epoch that a quorum of the auditors confirms, and whether there is one.
func (c *Client) Confirmed() (epoch uint64, isThere bool) {
	defer c.locked()()
	status, found := c.memory.confirmed()
	return uint64(found), status == 0
}

// IsRelied returns whether a quorum of the auditors confirms a stored epoch, for example that of what was found. It returns a *Refusal
// if the epoch is not kept.
func (c *Client) IsRelied(epoch uint64) (bool, error) {
	defer c.locked()()
	status := c.memory.relied(c.memory.placeOf(epoch))
	if status == notConfirmed {
		return false, nil
	}
	return status == 0, refused(status)
}

// Drop drops the first epochs: those before the confirmed one, and before the first missing one that is not lost. It returns them. Each
// watched one that was not seen as the same leaves an alarm. No reply for a dropped epoch is accepted: ask for missing ones first.
func (c *Client) Drop() []uint64 {
	defer c.locked()()
	epochs := make([]uint64, c.memory.count())
	for place := range epochs {
		epochs[place] = c.memory.epochAt(place)
	}
	return epochs[:c.memory.cover(seconds(c.clock()))]
}
