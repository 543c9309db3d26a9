package client

// #include <coniks_core.h>
import "C"

import (
	"errors"
	"math"
	"math/bits"
	"time"
)

// defaultSkew is in seconds.
const defaultSkew = 300

// clock is the caller's.
type clock func() time.Time

// rules returns what the policy and the trust document fix, with the client's limits, and the number of auditors.
func (s *Settings) rules() (rules C.coniks_rules, auditors C.size_t, err error) {
	digest, err := s.digest()
	if err != nil {
		return rules, 0, err
	}
	rules.policy = *bytes32(&digest)
	if policy := s.Policy; policy != nil && policy.ProofsKept != nil {
		rules.promise.is_limited, rules.promise.seconds = 1, C.uint64_t(*policy.ProofsKept)
	}
	if rules.clock, err = s.limits(); err != nil {
		return rules, 0, err
	}
	if trust := s.Trust; trust != nil {
		auditors, rules.trust = C.size_t(trust.Auditors), *bytes32(&trust.Digest)
		rules.quorum = C.coniks_core_quorum(auditors, C.size_t(trust.Faulty))
		if rules.quorum == 0 {
			return rules, 0, errors.New("more than three auditors are needed for each one that may be faulty")
		}
	}
	return rules, auditors, nil
}

// limits returns the policy's clock, and the client's limits.
func (s *Settings) limits() (it C.coniks_clock, err error) {
	var period uint64
	if policy := s.Policy; policy != nil {
		it.start, period = C.uint64_t(policy.EpochStart), policy.EpochPeriod
	}
	if period > 0 {
		it.is_there, it.period = 1, C.uint64_t(period)
	}
	// No epoch is older than 2^64 seconds.
	if period > math.MaxUint64/2 {
		period = math.MaxUint64 / 2
	}
	if it.max_age, err = limit(s.MaxAge, 2*period); err == nil {
		it.skew, err = limit(s.Skew, defaultSkew)
	}
	return it, err
}

// limit returns a limit in whole seconds, or another one if none is given.
func limit(given *time.Duration, other uint64) (C.uint64_t, error) {
	switch {
	case given == nil:
		return C.uint64_t(other), nil
	case *given < 0:
		return 0, errors.New("MaxAge and Skew are at least 0: set another, or nil")
	}
	return C.uint64_t(*given / time.Second), nil
}

// now returns the time of the caller's clock, which a state has as a number.
func (read clock) now() (time.Time, error) {
	now := read()
	if now.Unix() < 0 {
		return time.Time{}, errors.New("the clock's time is before 1970: check the clock")
	}
	return now, nil
}

// seconds returns a time as the core takes it. One before 1970 counts as 1970.
func seconds(now time.Time) C.uint64_t {
	if seconds := now.Unix(); seconds > 0 {
		return C.uint64_t(seconds)
	}
	return 0
}

// duration returns how long ago an epoch began by the policy's clock, nil without one. It is below 0 if the epoch has not begun. One that
// is too long for a duration is the longest one, and so is that of an epoch that begins 2^62 seconds after 1970 or later.
func (m *memory) duration(epoch uint64, now time.Time) *time.Duration {
	clock := &m.core.rules.clock
	if clock.is_there == 0 {
		return nil
	}
	// Epoch n begins n - 1 periods after the start. No chain has the epoch 0.
	high, after := bits.Mul64(epoch-1, uint64(clock.period))
	begins, carry := bits.Add64(uint64(clock.start), after, 0)
	duration := time.Duration(math.MinInt64)
	if high == 0 && carry == 0 && begins < 1<<62 {
		duration = now.Sub(time.Unix(int64(begins), 0))
	}
	return &duration
}
