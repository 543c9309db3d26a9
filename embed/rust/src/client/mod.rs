//! A client of a key directory that can't forget a step: it verifies signatures, the chain, VRF proofs, paths and the requested epoch.
//!
//! ```no_run
//! # fn main() -> Result<(), Box<dyn std::error::Error>> {
//! # let (document, signing_key, vrf_key, catch_up, reply) = ([0; 1], [0; 32], [0; 32], [0; 1], [0; 1]);
//! use coniks::client::{Client, Keys, Policy, Settings};
//!
//! let keys = Keys::new(&signing_key, Some(&vrf_key))?;                 // the directory publishes them,
//! let policy = Policy::read(&document)?;                              // and this document
//! let mut client = Client::new(keys, policy, Settings::default())?;
//! client.feed_catch_up(&catch_up)?;                                   // all entries since the last one
//! let found = client.lookup("alice", &reply, None)?;                  // `found.key` is alice's key, None if she has none
//! # Ok(())
//! # }
//! ```
//!
//! `feed` takes entries that continue the chain, and `lookup` a reply whose entry is one of that chain. Each call returns a
//! [`Refusal`] for anything else, whose `cause` says why, and keeps nothing of what it refused. Signatures are verified first, so
//! what anyone can send is never an alarm. What convicts the provider is the refusal's `evidence`: publish it.
//!
//! The owner of a name calls [`Client::watch`], and then each epoch must show the key. [`Client::missing`] has the epochs of which
//! no reply was accepted, and [`Client::lost`] those of them that can no longer be verified. Call [`Client::expect`] before you change
//! the key, and [`Client::report`] for what to tell the owner. Store [`Client::state`] after each call that changes it, and go on with
//! [`Client::resume`].
//!
//! If the policy has a clock, the latest epoch must have begun at most `max_age` ago, by default two periods. It must begin at most
//! `skew` from now. Only a lookup of an epoch by its number may be older: ask for a number of your own, never for that of the
//! reply. Without a clock, [`Found::first_seen`] says since when this client has had the entry. Times are compared in whole seconds:
//! what is beyond them of the clock's time, of `max_age` and of `skew` is left out.
//!
//! Each accepted entry is kept, in 218 bytes, until [`Client::drop_confirmed`] is called, or [`Client::cover`] with an auditor's head.
//! Compare heads with auditors and other clients by [`Client::compare`] and [`Client::evidence`]. With [`Settings::trust`] the client
//! notes the heads of its auditors by [`Client::mark`], and [`Client::is_relied`] says whether a quorum confirms an epoch.
//!
//! A client can't be copied: one of both would miss what the other is fed. No call panics, whatever its input is, unless memory is
//! exhausted. What is accepted is decided by the proved core (`coniks_core.h`). Signatures and VRF proofs are verified by libsodium, or
//! by a [`SignatureScheme`] and an [`IndexScheme`] of the caller.
#![forbid(unsafe_code)]

mod cause;
mod causes;
mod ecvrf;
mod policy;
mod schemes;
mod succession;
mod verdicts;
mod watched;

pub use cause::{Evidence, Misuse, Refusal};
use causes::misuses;
pub use causes::Cause;
pub use policy::{Policy, PolicyError, PolicyOrDigest};
pub use schemes::{Ecvrf, Ed25519, IndexScheme, Keys, SignatureScheme, SigningKey, VrfKey};
pub use succession::{NoSuccession, Succeeded, Succession};
pub use watched::{Alarm, Report, Trust, Watched};

use crate::client_core::{self as core_calls, Array, Core, Promise, Received, Rules, Text, Why, NOWHERE};
use crate::formats::NO_EVIDENCE;
use crate::{link, Body, Error, EvidenceKind, Head, ENTRY_BYTES, MAX_NAME};
use core::fmt;
use core::num::NonZeroUsize;
use core::time::Duration;
use policy::EpochClock;
use std::boxed::Box;
use std::collections::BTreeMap;
use std::string::String;
use std::sync::Arc;
use std::time::{SystemTime, UNIX_EPOCH};
use std::vec::Vec;
use verdicts::part;

/// What the core says of a reply that shows a key.
const SHOWS_KEY: u32 = 1;

/// Returns the time since the Unix epoch.
pub type Clock = Box<dyn Fn() -> Duration + Send + Sync>;

/// How old the latest epoch may be by the policy's clock, and what the time is.
pub struct Settings {
    /// How long ago the latest epoch may have begun; two periods if it is None.
    pub max_age: Option<Duration>,
    /// How far from now it may begin; by default 300 seconds.
    pub skew: Duration,
    /// The machine's clock by default. A time before 1970 is taken for 1970.
    pub clock: Clock,
    /// The auditors of which a quorum confirms epochs; none by default.
    pub trust: Option<Trust>,
}

impl Default for Settings {
    fn default() -> Self {
        let clock = || SystemTime::now().duration_since(UNIX_EPOCH).unwrap_or_default();
        Self { max_age: None, skew: Duration::from_secs(300), clock: Box::new(clock), trust: None }
    }
}

impl fmt::Debug for Settings {
    fn fmt(&self, f: &mut fmt::Formatter<'_>) -> fmt::Result {
        let mut it = f.debug_struct("Settings");
        it.field("max_age", &self.max_age).field("skew", &self.skew).field("trust", &self.trust).finish_non_exhaustive()
    }
}

/// An entry that was accepted.
#[derive(Clone, Copy, Debug, PartialEq, Eq)]
pub struct Step {
    /// Its epoch.
    pub epoch: u64,
    /// [`Watched::Missing`] if the epoch must show the watched name, until a reply does. One that is signed again has what was seen.
    pub seen: Option<Watched>,
}

/// What an accepted reply shows.
#[derive(Clone, Debug, PartialEq, Eq)]
#[must_use = "the key may be absent or changed"]
pub struct Found {
    /// The epoch of the reply.
    pub epoch: u64,
    /// The key, None if the name is bound to none.
    pub key: Option<Arc<[u8]>>,
    /// What that is for the watched name, None for another name and for an epoch that is not watched.
    pub seen: Option<Watched>,
    /// How many whole seconds ago the epoch began by the policy's clock, below 0 if it has not begun. None without a clock.
    pub age: Option<i128>,
    /// The Unix time in seconds at which the client accepted the entry.
    pub first_seen: u64,
}

/// Whether a head is one of the client's chain. One that differs convicts nobody: fetch its entry, and call
/// [`Client::evidence`].
#[derive(Clone, Copy, Debug, PartialEq, Eq, Hash)]
#[must_use = "the head may differ"]
pub enum Comparison {
    /// The client keeps an entry with this epoch and link.
    Equal,
    /// The client keeps no entry that covers this epoch.
    Unknown,
    /// The client keeps another entry that covers this epoch.
    Differs,
}

impl Comparison {
    fn of(number: u32) -> Self {
        match number {
            1 => Self::Equal,
            2 => Self::Unknown,
            _ => Self::Differs,
        }
    }
}

/// A client of one directory.
pub struct Client {
    keys: Keys,
    epochs: Option<EpochClock>,
    clock: Clock,
    core: Core,
    successor: Option<[u8; 32]>,
}

impl fmt::Debug for Client {
    fn fmt(&self, f: &mut fmt::Formatter<'_>) -> fmt::Result {
        let stored = self.core.stored.get().len();
        f.debug_struct("Client").field("head", &self.head()).field("entries", &stored).finish_non_exhaustive()
    }
}

/// How a client begins.
impl Client {
    /// Returns a client that has no entry.
    ///
    /// # Errors
    ///
    /// [`Cause::PolicyKeys`] if a key is not that of the policy document.
    pub fn new(keys: Keys, policy: impl Into<PolicyOrDigest>, settings: Settings) -> Result<Self, Refusal> {
        let (policy, epochs, proofs_kept, successor) = match policy.into() {
            PolicyOrDigest::Policy(it) => {
                keys.check(&it)?;
                (it.digest(), it.clock(), it.proofs_kept(), it.successor_key().copied())
            }
            PolicyOrDigest::Digest(it) => (it, None, None, None),
        };
        let Settings { max_age, skew, clock, trust } = settings;
        let (start, period) = epochs.map_or((0, 0), |it| (it.start, it.period.get()));
        let max_age = max_age.map_or(period.saturating_mul(2), |it| it.as_secs());
        let Trust { digest: trust, auditors, quorum } = trust.unwrap_or(Trust::NONE);
        let rules = Rules {
            policy,
            trust,
            clock: core_calls::Clock { is_there: epochs.is_some().into(), start, period, max_age, skew: skew.as_secs() },
            promise: Promise { is_limited: proofs_kept.is_some().into(), seconds: proofs_kept.unwrap_or(0) },
            quorum,
        };
        Ok(Self { keys, epochs, clock, core: Core::new(rules, auditors), successor })
    }

    /// Returns a client that goes on from the state of another one. Its marks are those of the state if that has the same trust document
    /// and the same number of auditors, else 0.
    ///
    /// # Errors
    ///
    /// [`Cause::PolicyKeys`], and those of a state (96 to 101).
    pub fn resume(keys: Keys, policy: impl Into<PolicyOrDigest>, state: &[u8], settings: Settings) -> Result<Self, Refusal> {
        let mut client = Self::new(keys, policy, settings)?;
        client.take_state(state)?;
        Ok(client)
    }

    /// Returns a client whose chain begins with an entry that at least `least` auditors have.
    ///
    /// `heads` has the head of each auditor for that entry's epoch, by the auditor's name. Get each from the auditor itself. With
    /// [`Settings::trust`], call [`Client::mark`] with each of them afterwards.
    ///
    /// # Errors
    ///
    /// [`Cause::PolicyKeys`], [`Cause::ManyHeads`], those of the entry alone, [`Cause::AuditorsDiffer`] and [`Cause::NotVouched`], in
    /// this order.
    pub fn vouched(
        keys: Keys,
        policy: impl Into<PolicyOrDigest>,
        entry: &[u8],
        heads: &BTreeMap<String, Head>,
        least: NonZeroUsize,
        settings: Settings,
    ) -> Result<Self, Refusal> {
        let mut client = Self::new(keys, policy, settings)?;
        let row = |it: &Head| core_calls::Head { is_there: 1, epoch: it.epoch, link: it.link };
        let rows: Vec<core_calls::Head> = heads.values().map(row).collect();
        let received = client.received(entry, client.now());
        let reported = client.core.start_by(least.get(), &rows, &received);
        client.accepted(reported, entry)?;
        Ok(client)
    }
}

/// The chain.
impl Client {
    /// Accepts entries that continue the chain, or the latest one signed again. After [`Cause::PreviousLink`] get the latest entry once
    /// more, and feed it before the next one: it may have been signed again.
    ///
    /// # Errors
    ///
    /// The first entry that does not, with the cause of `docs/FORMATS.md`, "A client's chain". Those before it are kept.
    pub fn feed(&mut self, entries: impl IntoIterator<Item = impl AsRef<[u8]>>) -> Result<Vec<Step>, Refusal> {
        entries.into_iter().map(|it| self.feed_one(it.as_ref())).collect()
    }

    /// Accepts the entries of a catch-up, which continue the chain.
    ///
    /// # Errors
    ///
    /// [`Cause::CatchUpLength`], and then nothing is stored; else as [`Client::feed`].
    pub fn feed_catch_up(&mut self, catch_up: &[u8]) -> Result<Vec<Step>, Refusal> {
        let count = good(core_calls::catch_up(catch_up))?;
        self.feed(catch_up.chunks_exact(ENTRY_BYTES).take(count))
    }

    fn feed_one(&mut self, entry: &[u8]) -> Result<Step, Refusal> {
        let received = self.received(entry, self.now());
        self.core.stored.reserve(1);
        let reported = core_calls::feed(&mut self.core, &received);
        self.accepted(reported, entry)?;
        let latest = self.core.stored.get().last().ok_or(Cause::UnknownEpoch)?;
        Ok(Step { epoch: epoch_of(latest), seen: Watched::of(latest.seen.into()) })
    }

    /// Returns an entry as the core takes it, with the verdict on its signature.
    fn received<'a>(&self, entry: &'a [u8], time: u64) -> Received<'a> {
        Received { entry: Text::of(entry), signature: verdicts::of_entry(&self.keys, entry), time }
    }

    /// Returns the refusal of a status, with what convicts together with an entry.
    fn accepted(&self, (status, why): (u32, Why), entry: &[u8]) -> Result<(), Refusal> {
        if status == 0 {
            return Ok(());
        }
        let own_status = (why.status != 0).then(|| Error::of(why.status));
        Err(Refusal::with(Cause::of(status), own_status, self.evidence_of(&why, entry)))
    }

    fn evidence_of(&self, why: &Why, entry: &[u8]) -> Option<Evidence> {
        let (other, kind) = (entry.try_into().ok()?, EvidenceKind::of(why.kind)?);
        let mine = if why.mine == NOWHERE { other } else { self.core.stored.get().get(why.mine)?.entry };
        Some(Evidence { mine, other, kind })
    }

    /// Returns the entries that are stored, in the order of the chain.
    pub fn entries(&self) -> impl ExactSizeIterator<Item = &[u8; ENTRY_BYTES]> + '_ {
        self.core.stored.get().iter().map(|it| &it.entry)
    }

    /// Returns the head of the latest entry, None before the first.
    #[must_use]
    pub fn head(&self) -> Option<Head> {
        let latest = self.core.stored.get().last()?;
        Some(Head { epoch: epoch_of(latest), link: link(&latest.entry).ok()? })
    }

    /// Returns whether a head is one of the chain, as far as its entries are kept.
    pub fn compare(&self, head: &Head) -> Comparison {
        Comparison::of(core_calls::compare(&self.core, head.epoch, &head.link).0)
    }

    /// Drops the entries before that of an auditor's head, if it is one of this chain: the auditor's chain has them. Epochs that are
    /// missing and not lost stay, with what follows them. Each dropped watched epoch that was not the same leaves an alarm. With
    /// [`Settings::trust`] it only compares, since one auditor confirms nothing: call [`Client::mark`] and [`Client::drop_confirmed`].
    pub fn cover(&mut self, head: &Head) -> Comparison {
        let found = self.compare(head);
        if found == Comparison::Equal && self.core.rules.quorum == 0 {
            self.core.cover_by(head.epoch, self.now());
        }
        found
    }

    /// Returns what convicts the provider together with another one's entry, None if nothing does.
    ///
    /// # Errors
    ///
    /// [`Cause::EntryLength`], and [`Cause::Signature`] if the entry is not signed.
    pub fn evidence(&self, other_entry: &[u8]) -> Result<Option<Evidence>, Refusal> {
        let (status, why) = core_calls::evidence(&self.core, &self.received(other_entry, 0));
        if status != NO_EVIDENCE {
            return good((status, self.evidence_of(&why, other_entry)));
        }
        succession::alone(other_entry)
    }
}

/// The auditors.
impl Client {
    /// Compares a head that an auditor cosigned, and remembers its epoch if they are equal. `auditor` is its place in the trust document,
    /// from 0 on. Verify the cosignature first.
    ///
    /// # Errors
    ///
    /// [`Misuse::NoAuditor`] if the trust document has no such auditor.
    pub fn mark(&mut self, auditor: usize, head: &Head) -> Result<Comparison, Misuse> {
        match core_calls::mark(&mut self.core, auditor, head.epoch, &head.link) {
            found @ 1..=3 => Ok(Comparison::of(found)),
            _ => Err(Misuse::NoAuditor),
        }
    }

    /// Returns the latest epoch that a quorum of the auditors confirms, None if there is none.
    #[must_use]
    pub fn confirmed(&self) -> Option<u64> {
        let (status, epoch) = core_calls::confirmed(&self.core);
        (status == 0).then_some(epoch)
    }

    /// Returns whether a quorum of the auditors confirms a stored epoch, for example that of [`Found`].
    ///
    /// # Errors
    ///
    /// [`Cause::UnknownEpoch`] if the epoch is not kept.
    pub fn is_relied(&self, epoch: u64) -> Result<bool, Refusal> {
        let place = self.core.stored.get().binary_search_by_key(&epoch, epoch_of).unwrap_or(NOWHERE);
        match core_calls::relied(&self.core, place) {
            misuses::NOT_CONFIRMED => Ok(false),
            status => good((status, true)),
        }
    }

    /// Drops the first epochs: those before the confirmed one, and before the first missing one that is not lost. Returns them. Each
    /// watched one that was not seen as the same leaves an alarm. No reply for a dropped epoch is accepted: ask for missing ones first.
    pub fn drop_confirmed(&mut self) -> Vec<u64> {
        let epochs: Vec<u64> = self.core.stored.get().iter().map(epoch_of).collect();
        let covered = self.core.cover(self.now());
        epochs.into_iter().take(covered.epochs).collect()
    }
}

/// Lookups.
impl Client {
    /// Returns what a reply shows of a name, at the epoch that was requested, or at the latest one if that is None.
    ///
    /// # Errors
    ///
    /// The first cause in the order of `docs/FORMATS.md`, "A client's lookup".
    pub fn lookup(&mut self, name: impl AsRef<[u8]>, reply: &[u8], epoch: Option<u64>) -> Result<Found, Refusal> {
        let name = name.as_ref();
        let needs = good(core_calls::reply_needs(&self.core, reply))?;
        let (now, verdicts) = (self.now(), verdicts::of_reply(&self.keys, name, reply, &needs));
        let asking = core_calls::Asking {
            name: Text::of(name),
            reply: Text::of(reply),
            is_requested: epoch.is_some().into(),
            epoch: epoch.unwrap_or(0),
            time: now,
        };
        let mut shown = core_calls::Found::default();
        let reported = core_calls::lookup(&mut self.core, &asking, &verdicts, &mut shown);
        self.accepted(reported, part(reply, needs.entry_start, ENTRY_BYTES))?;
        let key = (shown.shows == SHOWS_KEY).then(|| Arc::from(part(reply, shown.key_start, shown.key_length)));
        Ok(self.found(shown.place, key, shown.seen, now)?)
    }

    /// Returns what a history shows of a name, one for each of its epochs.
    ///
    /// # Errors
    ///
    /// The first cause in the order of `docs/FORMATS.md`: of the bytes, of the VRF proof, of the steps. Nothing is stored then.
    pub fn history(&mut self, name: impl AsRef<[u8]>, history: &[u8]) -> Result<Vec<Found>, Refusal> {
        let name = name.as_ref();
        let needs = good(core_calls::history_needs(history))?;
        let proof = part(history, needs.vrf_start, needs.vrf_length);
        let (now, verdicts) = (self.now(), verdicts::of_index(&self.keys, name, proof));
        let asking = core_calls::History { name: Text::of(name), history: Text::of(history) };
        let mut siblings = core_calls::Siblings { strings: [[0; 32]; 256] };
        let mut steps = Array::default();
        steps.reserve(self.core.stored.get().len() + 1);
        let status = core_calls::history(&mut self.core, &asking, &verdicts, &mut siblings, &mut steps);
        good((status, ()))?;
        let mut last: (&[u8], Arc<[u8]>) = (&[], Arc::default());
        let found = steps.get().iter().map(|it: &core_calls::Step<'_>| {
            // A key that a history repeats is one allocation, however long it is.
            let key = it.key.get();
            if key.as_ptr_range() != last.0.as_ptr_range() {
                last = (key, Arc::from(key));
            }
            self.found(it.place, (it.shows == SHOWS_KEY).then(|| last.1.clone()), it.seen, now)
        });
        Ok(found.collect::<Result<_, _>>()?)
    }

    fn found(&self, place: usize, key: Option<Arc<[u8]>>, seen: u32, now: u64) -> Result<Found, Cause> {
        let stored = self.core.stored.get().get(place).ok_or(Cause::UnknownEpoch)?;
        let epoch = epoch_of(stored);
        let age = self.epochs.map(|it| it.age(epoch, now));
        Ok(Found { epoch, key, seen: Watched::of(seen), age, first_seen: u64::from_be_bytes(stored.first_seen) })
    }

    /// Returns the time, in whole seconds.
    fn now(&self) -> u64 {
        (self.clock)().as_secs()
    }
}

/// The watched name, and the state.
impl Client {
    /// Watches the client's own name: each epoch from `since` on, by default the latest, must show the key, or none if it is None.
    /// A client watches one name for its life. The same call once more changes nothing.
    ///
    /// # Errors
    ///
    /// [`Misuse`] for another name, key or first epoch than before, and for a name or key that no directory has.
    pub fn watch(&mut self, name: impl AsRef<[u8]>, key: Option<&[u8]>, since: Option<u64>) -> Result<(), Misuse> {
        let name = name.as_ref();
        if matches!(key, Some([])) && (1..=MAX_NAME).contains(&name.len()) {
            return Err(Misuse::KeyLength);
        }
        Misuse::of(self.core.watch(name, key.unwrap_or_default(), since))
    }

    /// Expects the owner's own change of the key: later epochs may show the old or the new key, and from epoch `by` on only the
    /// new one. No epoch may show the old key after one that showed the new key.
    ///
    /// # Errors
    ///
    /// [`Misuse`] if no name is watched, while another change is open, and if key or epoch do not change anything. A change is open
    /// until the chain has its epoch `by` or a later one, or an epoch showed its key.
    pub fn expect(&mut self, new_key: Option<&[u8]>, by: u64) -> Result<(), Misuse> {
        if matches!(new_key, Some([])) && self.core.is_watching() {
            return Err(Misuse::KeyLength);
        }
        Misuse::of(self.core.expect(new_key.unwrap_or_default(), by))
    }

    /// Returns the epochs that must show the watched name, and of which no reply was accepted.
    #[must_use]
    pub fn missing(&self) -> Vec<u64> {
        self.missing_where(|_| true)
    }

    /// Returns the missing epochs of which the policy promises no proof any more, by the client's clock. Report that they can no
    /// longer be verified, never that they are the same.
    #[must_use]
    pub fn lost(&self) -> Vec<u64> {
        let now = self.now();
        self.missing_where(|place| core_calls::lost(&self.core, now, place) == 1)
    }

    /// Returns the missing epochs at some of the places.
    fn missing_where(&self, is_wanted: impl Fn(usize) -> bool) -> Vec<u64> {
        let stored = self.core.stored.get().iter().enumerate();
        let missing = stored.filter(|(_, it)| Watched::of(it.seen.into()) == Some(Watched::Missing));
        missing.filter(|&(place, _)| is_wanted(place)).map(|(_, it)| epoch_of(it)).collect()
    }

    /// Returns the alarms of dropped epochs, until their owner takes note of them.
    #[must_use]
    pub fn alarms(&self) -> Vec<Alarm> {
        let alarm = |it: &core_calls::Alarm| Some(Alarm { epoch: it.epoch, seen: Watched::of(it.seen.into())? });
        self.core.alarms.get().iter().filter_map(alarm).collect()
    }

    /// Takes note of the alarms up to an epoch, which the owner has seen: they are dropped.
    pub fn note(&mut self, epoch: u64) {
        // There is always room for the alarms that there are.
        let _status = core_calls::note(&mut self.core, epoch);
    }

    /// Returns what to tell the owner of the watched name. Without [`Settings::trust`] it is never [`Report::Good`].
    ///
    /// # Errors
    ///
    /// [`Misuse::NotWatching`] if no name is watched.
    pub fn report(&self) -> Result<Report, Misuse> {
        let (status, report) = core_calls::report(&self.core, self.now());
        Misuse::of(status).map(|()| Report::of(&report))
    }

    /// Returns all that the client keeps, for [`Client::resume`]: 110 bytes, 218 for each epoch, 9 for each alarm, 8 for each auditor, and
    /// the watched name.
    #[must_use]
    pub fn state(&self) -> Vec<u8> {
        self.core.state()
    }

    fn take_state(&mut self, state: &[u8]) -> Result<(), Refusal> {
        let needs = good(core_calls::state_needs(&self.core, state))?;
        let verdicts = verdicts::of_state(&self.keys, state, &needs);
        good((self.core.read_state(state, &needs, &verdicts), ()))
    }
}

/// Returns what a call of the core has written, or the refusal of its status.
fn good<T>((status, written): (u32, T)) -> Result<T, Refusal> {
    if status == 0 {
        return Ok(written);
    }
    Err(Cause::of(status).into())
}

/// Returns the epoch of a stored entry.
fn epoch_of(stored: &core_calls::StoredEntry) -> u64 {
    Body::of_entry(&stored.entry).map_or(0, |it| it.epoch)
}
