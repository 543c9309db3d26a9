package client

import (
	"fmt"
	"math"
	"testing"
	"time"

	"example.org/coniks"
)

// The latest epoch is refused a second after MaxAge, and before Skew: parts of a second are left out.
func TestAges(t *testing.T) {
	it := newWorld(t, "AA")
	begin, none, ten := it.start(2), time.Duration(0), 10*time.Second
	more := ten + time.Second - 1
	for _, wanted := range []struct {
		maxAge, skew *time.Duration
		last, first  time.Duration
	}{
		{nil, nil, 2 * time.Hour, -300 * time.Second},
		{&none, &none, 0, 0},
		{&ten, nil, ten, -300 * time.Second},
		{nil, &ten, 2 * time.Hour, -ten},
		{&more, &more, ten, -ten},
	} {
		var now time.Time
		settings := it.settings(2)
		settings.MaxAge, settings.Skew, settings.Clock = wanted.maxAge, wanted.skew, func() time.Time { return now }
		made, err := New(settings)
		good(t, err)
		now = begin
		_, err = made.Feed(it.chain)
		good(t, err)
		for _, age := range []time.Duration{wanted.last, wanted.first} {
			now = begin.Add(age)
			found, err := made.Lookup("alice", it.reply(2))
			if err != nil || *found.Age != age || found.FirstSeen != uint64(begin.Unix()) {
				t.Fatal(age, found, err)
			}
		}
		now = begin.Add(wanted.last + time.Second - 1)
		if _, err := made.Lookup("alice", it.reply(2)); err != nil {
			t.Error(err)
		}
		for age, cause := range map[time.Duration]Cause{wanted.last + time.Second: Stale, wanted.first - 1: Future} {
			now = begin.Add(age)
			found, err := made.Lookup("alice", it.reply(2))
			if wants(t, err, cause); found != nil {
				t.Error(found)
			}
			found, err = made.LookupAt("alice", it.reply(2), 2)
			if err != nil || *found.Age != age {
				t.Error(found, err)
			}
		}
	}
}

// Numbers of 64 bits in a policy and in an entry do not wrap around.
func TestGreatNumbers(t *testing.T) {
	now := time.Unix(1767225600, 1)
	for _, wanted := range []struct {
		start, period, epoch uint64
		age                  time.Duration
	}{
		{math.MaxUint64, 1, 1, math.MinInt64},
		{math.MaxUint64, 2, 2, math.MinInt64},
		{0, math.MaxUint64, math.MaxUint64, math.MinInt64},
		{0, math.MaxUint64, 1, 1767225600*time.Second + 1},
		{0, 1, math.MaxUint64, math.MinInt64},
		{1767225600, 1 << 63, 3, math.MinInt64},
		{0, 1 << 60, 1<<4 + 1, math.MinInt64},
		{0, 1, 1, 1767225600*time.Second + 1},
		{1767225601, 1, 1, -999999999},
	} {
		it := newWorld(t, "A")
		settings := it.settings(1)
		settings.Policy.EpochStart, settings.Policy.EpochPeriod = wanted.start, wanted.period
		settings.Clock = nil
		made, err := New(settings)
		good(t, err)
		if age := made.memory.duration(wanted.epoch, now); *age != wanted.age {
			t.Error(wanted, *age)
		}
	}
	// Two periods are more than 2^64 seconds.
	long := worldOf(t, "A", coniks.Policy{EpochStart: 1000, EpochPeriod: 1 << 63})
	if _, err := long.client(t, 1).Lookup("alice", long.reply(1)); err != nil {
		t.Error(err)
	}
	it := newWorld(t, "A")
	settings := it.settings(1)
	settings.Clock = func() time.Time { return time.Unix(math.MaxInt64/int64(time.Second)*2, 0) }
	made := it.client(t, 1)
	made.clock = settings.Clock
	found, err := made.LookupAt("alice", it.reply(1), 1)
	if err != nil || *found.Age != math.MaxInt64 {
		t.Error(found, err)
	}
}

// A missing epoch is lost at the second at which its proofs end. A bare digest promises them for ever.
func TestLost(t *testing.T) {
	it, stored := newWorld(t, "AAA"), uint64(hour)
	for _, wanted := range []struct {
		stored *uint64
		now    time.Time
		lost   string
	}{
		{&stored, it.start(3).Add(-1), "[]"},
		{&stored, it.start(3), "[1]"},
		{&stored, it.start(4).Add(-1), "[1]"},
		{&stored, it.start(4), "[1 2]"},
		{&stored, it.start(1000000), "[1 2]"},
		{new(uint64), it.start(2).Add(-1), "[]"},
		{new(uint64), it.start(2), "[1]"},
		{new(uint64), time.Unix(-1, 0), "[]"},
		{new(uint64), time.Time{}, "[]"},
		{nil, it.start(1000000), "[]"},
	} {
		it := promisingWorld(t, "AAA", wanted.stored)
		settings, now := it.settings(1), it.start(1)
		settings.Clock = func() time.Time { return now }
		made, err := New(settings)
		good(t, err)
		good(t, made.Watch("alice", []byte("A")))
		_, err = made.Feed(it.chain)
		good(t, err)
		now = wanted.now
		if lost := made.Lost(); fmt.Sprint(lost) != wanted.lost || fmt.Sprint(made.Missing()) != "[1 2 3]" {
			t.Error(wanted, lost)
		}
	}
}

// lostOf returns the lost epochs of a client that saw no reply.
func lostOf(t *testing.T, settings Settings, it *world) string {
	made, err := New(settings)
	good(t, err)
	good(t, made.WatchSince("alice", []byte("A"), 1))
	_, err = made.Feed(it.chain)
	good(t, err)
	return fmt.Sprint(made.Lost())
}

// The time that proofs are kept is read from the policy, and is for ever with a bare digest.
func TestPromises(t *testing.T) {
	it := newWorld(t, "AA")
	settings := it.settings(3)
	if lost := lostOf(t, settings, it); lost != "[]" {
		t.Error("the policy promises proofs for ever", lost)
	}
	digest, err := settings.Policy.Digest()
	good(t, err)
	settings.Policy, settings.Digest = nil, &digest
	if lost := lostOf(t, settings, it); lost != "[]" {
		t.Error("a digest ends a promise", lost)
	}
}

// What the caller does with the policy later changes nothing.
func TestPolicyIsCopied(t *testing.T) {
	stored := uint64(hour)
	it := promisingWorld(t, "AAA", &stored)
	settings := it.settings(3)
	made, err := New(settings)
	good(t, err)
	stored, *settings.Policy = 0, coniks.Policy{}
	good(t, made.WatchSince("alice", []byte("A"), 1))
	_, err = made.Feed(it.chain)
	good(t, err)
	if lost := made.Lost(); fmt.Sprint(lost) != "[1]" {
		t.Error("the time that proofs are kept changed", lost)
	}
}

// A clock that has no Unix time: nothing is accepted.
func TestClockBefore1970(t *testing.T) {
	it := newWorld(t, "AA")
	now := it.start(1)
	settings := it.settings(1)
	settings.Clock = func() time.Time { return now }
	made, err := New(settings)
	good(t, err)
	_, err = made.Feed(it.chain[:1])
	good(t, err)
	state := string(made.State())
	for _, now = range []time.Time{time.Unix(-1, 0), time.Unix(0, -1), {}} {
		_, err := made.Feed(it.chain[1:])
		misuse(t, err)
		_, err = made.Lookup("alice", it.reply(1))
		misuse(t, err)
		_, err = made.LookupAt("alice", it.reply(1), 1)
		misuse(t, err)
		_, err = made.History("alice", []byte{1, 0, 0})
		misuse(t, err)
	}
	if string(made.State()) != state {
		t.Error("something was kept")
	}
	now = time.Unix(0, 0)
	_, err = made.Feed(it.chain[1:])
	good(t, err)
}
