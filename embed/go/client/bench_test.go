package client

import (
	"runtime"
	"syscall"
	"testing"
	"time"
)

// exampleClient is a client of the examples of docs/FORMATS.md, and the reply for alice.
func exampleClient(t testing.TB) (*Client, []byte) {
	var now time.Time
	wanted, settings := readExamples(t, &now)
	it, err := New(settings)
	good(t, err)
	now = now.Add(time.Hour)
	for _, entry := range wanted.Entries {
		_, err = it.FeedCatchUp(unhex(t, entry))
		good(t, err)
	}
	return it, unhex(t, wanted.Reply)
}

// A lookup with all five steps. The entry is one that the client has.
func BenchmarkLookup(b *testing.B) {
	it, reply := exampleClient(b)
	b.ResetTimer()
	for count := 0; count < b.N; count++ {
		if _, err := it.Lookup("alice", reply); err != nil {
			b.Fatal(err)
		}
	}
}

// An entry that continues the chain.
func BenchmarkFeed(b *testing.B) {
	it := newWorld(b, string(make([]byte, 256)))
	for count := 0; count < b.N; count += len(it.chain) {
		made, err := New(it.settings(1))
		good(b, err)
		_, err = made.Feed(it.chain)
		good(b, err)
	}
}

// A lookup takes at most 2 ms of processor time, in the best of some rounds.
func TestSpeedOfLookups(t *testing.T) {
	const rounds, lookups, bar = 10, 20, 2 * time.Millisecond
	it, reply := exampleClient(t)
	runtime.LockOSThread()
	defer runtime.UnlockOSThread()
	best := time.Hour
	for round := 0; round < rounds; round++ {
		begin := threadTime(t)
		for count := 0; count < lookups; count++ {
			_, err := it.Lookup("alice", reply)
			good(t, err)
		}
		if spent := (threadTime(t) - begin) / lookups; spent < best {
			best = spent
		}
	}
	if best > bar {
		t.Errorf("a lookup takes %v of processor time, more than %v", best, bar)
	}
}

// threadTime is the processor time of this thread, by getrusage(2).
func threadTime(t *testing.T) time.Duration {
	const thisThread = 1
	var usage syscall.Rusage
	good(t, syscall.Getrusage(thisThread, &usage))
	return time.Duration(usage.Utime.Nano() + usage.Stime.Nano())
}
