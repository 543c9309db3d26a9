//! Messages and states that an attacker makes: cut, changed, and with lengths that nothing follows.

mod formats;

use coniks::client::{Cause, Client};
use formats::{bytes, fed, keys, policy, Time, HISTORY, REPLY, STATE};
use std::alloc::{GlobalAlloc, Layout, System};
use std::cell::Cell;

thread_local! {
    static LARGEST: Cell<usize> = const { Cell::new(0) };
}

/// The system's allocator, which remembers the largest allocation of each thread.
struct Measuring;

// SAFETY: each call is that of the system's allocator.
unsafe impl GlobalAlloc for Measuring {
    unsafe fn alloc(&self, layout: Layout) -> *mut u8 {
        LARGEST.set(LARGEST.get().max(layout.size()));
        // SAFETY: the caller's promise is the same.
        unsafe { System.alloc(layout) }
    }

    unsafe fn dealloc(&self, block: *mut u8, layout: Layout) {
        // SAFETY: the caller's promise is the same.
        unsafe { System.dealloc(block, layout) }
    }

    unsafe fn realloc(&self, block: *mut u8, layout: Layout, size: usize) -> *mut u8 {
        LARGEST.set(LARGEST.get().max(size));
        // SAFETY: the caller's promise is the same.
        unsafe { System.realloc(block, layout, size) }
    }
}

#[global_allocator]
static ALLOCATOR: Measuring = Measuring;

/// The result of a call that makes no allocation of 64 KiB.
fn small<T>(call: impl FnOnce() -> T) -> T {
    LARGEST.set(0);
    let result = call();
    assert!(LARGEST.get() < 1 << 16, "an allocation of {} bytes", LARGEST.get());
    result
}

fn resumed(state: &[u8]) -> Result<Client, Cause> {
    small(|| Client::resume(keys(), policy(), state, Time::default().settings())).map_err(|it| it.cause)
}

fn looked_up(reply: &[u8]) -> Option<Cause> {
    let (mut client, _) = fed();
    let before = client.state();
    let cause = small(|| client.lookup("alice", reply, None)).err().map(|it| it.cause);
    assert_eq!(client.state(), before);
    cause
}

fn gone_through(history: &[u8]) -> Option<Cause> {
    let (mut client, _) = fed();
    client.watch("alice", Some(b"k"), Some(1)).expect("no other name");
    let before = client.state();
    let cause = small(|| client.history("alice", history)).err().map(|it| it.cause);
    assert!(cause.is_none() || client.state() == before);
    cause
}

/// Calls with each text that differs from one in a bit, and with the number of this bit.
fn flipped(text: &[u8], call: impl Fn(usize, &[u8])) {
    for bit in 0..8 * text.len() {
        let mut other = text.to_vec();
        other[bit / 8] ^= 1 << (bit % 8);
        call(bit, &other);
    }
}

#[test]
fn a_reply_that_is_cut() {
    let reply = bytes(REPLY);
    for size in 0..reply.len() {
        let cause = looked_up(&reply[..size]).expect("it is cut");
        let wanted = match size {
            0 => Cause::NoReply,
            1..=209 => Cause::CutInEntry,
            210..=291 => Cause::CutInVrf,
            292 => Cause::NoBytes,
            293..=294 => Cause::CutInCount,
            295..=326 => Cause::CutInSiblings,
            327..=358 => Cause::CutInOpening,
            359..=365 => Cause::CutInName,
            _ => Cause::CutInKey,
        };
        assert_eq!(cause, wanted, "{size} bytes");
    }
    assert_eq!(looked_up(&[&reply[..], &[0]].concat()), Some(Cause::BytesFollow));
}

#[test]
fn lengths_that_nothing_follows() {
    let (mut reply, mut history, mut long) = (bytes(REPLY), bytes(HISTORY), bytes(REPLY));
    reply[210..212].fill(0xff);
    assert_eq!(looked_up(&reply), Some(Cause::CutInVrf));
    reply.resize(212 + 65_535, 0);
    assert_eq!(looked_up(&reply), Some(Cause::VrfProof));
    long[366..370].fill(0xff);
    assert_eq!(looked_up(&long), Some(Cause::CutInKey));
    // The key's length of the first step of the history.
    assert_eq!(history[133..137], [0, 0, 0, 1]);
    history[133..137].fill(0xff);
    assert_eq!(gone_through(&history), Some(Cause::CutInStep));
    let catch_up = vec![0; 208];
    assert_eq!(small(|| fed().0.feed_catch_up(&catch_up)).unwrap_err().cause, Cause::CatchUpLength);
}

#[test]
fn a_history_that_is_cut_or_changed() {
    let history = bytes(HISTORY);
    for size in 0..history.len() {
        // The first step ends at 138.
        let is_whole = size == 83 || size == 138;
        assert_eq!(gone_through(&history[..size]).is_none(), is_whole, "{size} bytes");
    }
    flipped(&history, |bit, other| assert!(gone_through(other).is_some(), "bit {bit}"));
}

#[test]
fn a_reply_that_is_changed() {
    flipped(&bytes(REPLY), |bit, other| assert!(looked_up(other).is_some(), "bit {bit}"));
}

#[test]
fn a_state_that_is_cut_or_changed() {
    let state = bytes(STATE);
    for size in 0..state.len() {
        let wanted = if size < 110 { Cause::StateLength } else { Cause::StateDamaged };
        assert_eq!(resumed(&state[..size]).err(), Some(wanted), "{size} bytes");
    }
    flipped(&state, |bit, other| {
        let wanted = if bit < 8 { Cause::StateVersion } else { Cause::StateDamaged };
        assert_eq!(resumed(other).err(), Some(wanted), "bit {bit}");
    });
}

/// States with their own digests, which Python's hashlib computed.
#[test]
fn a_state_with_lengths_that_nothing_follows() {
    for (state, digest) in formats::STATES {
        let state = [bytes("03"), bytes(formats::DIGEST), bytes(state), bytes(digest)].concat();
        assert_eq!(resumed(&state).err(), Some(Cause::StateForm), "{state:x?}");
    }
}
