//! The client over the examples of docs/FORMATS.md, and what its callers can do wrong.

mod formats;

use coniks::client::{
    Alarm, Cause, Client, Comparison, Found, IndexScheme, Keys, Misuse, NoSuccession, Policy, PolicyError, Report, Settings,
    SignatureScheme, SigningKey, Step, Succession, Trust, VrfKey, Watched,
};
use coniks::{link, Body, Error, EvidenceKind, Head};
use formats::{
    bytes, entries, fed, keys, policy, Time, HISTORY, MARKED, PERIOD, POLICY, REPLY, START, STATE, TRUST, UNSIGNED, WATCH,
};
use std::collections::BTreeMap;
use std::num::{NonZeroU64, NonZeroUsize};
use std::panic::{catch_unwind, AssertUnwindSafe};
use std::sync::atomic::{AtomicBool, Ordering};
use std::sync::{Arc, Mutex};
use std::time::Duration;

const MINUTE: u64 = 60 * 1000;

#[test]
fn the_policy_of_the_example() {
    let policy = policy();
    assert_eq!(policy.bytes(), POLICY.as_bytes());
    assert_eq!(policy.digest().to_vec(), bytes(formats::DIGEST));
    assert_eq!((policy.origin(), policy.proofs_kept()), ("keys.example.com/directory", None));
    assert_eq!(policy.signing_key().to_vec(), bytes(formats::SIGNING_KEY));
    assert_eq!(policy.vrf_key().map(Vec::from), Some(bytes(formats::VRF_KEY)));
    assert_eq!((policy.epoch_start(), policy.epoch_period()), (Some(START), NonZeroU64::new(PERIOD)));
}

#[test]
fn epochs_by_the_clock() {
    let policy = policy();
    assert_eq!(policy.epoch_at(START - 1), Err(PolicyError::BeforeFirstEpoch));
    assert_eq!((policy.epoch_at(START), policy.epoch_at(START + PERIOD - 1)), (Ok(1), Ok(1)));
    assert_eq!(policy.epoch_at(START + PERIOD), Ok(2));
    let longest = POLICY.replace("epoch-start 1767225600", "epoch-start 0").replace("epoch-period 3600", "epoch-period 1");
    let longest = Policy::read(longest.as_bytes()).expect("a policy");
    assert_eq!((longest.epoch_at(u64::MAX - 1), longest.epoch_at(u64::MAX)), (Ok(u64::MAX), Err(PolicyError::AfterLastEpoch)));
    let without = Policy::read(POLICY.replace("epoch-start 1767225600\nepoch-period 3600\n", "").as_bytes()).expect("a policy");
    assert_eq!((without.epoch_start(), without.epoch_at(START)), (None, Err(PolicyError::NoClock)));
}

#[test]
fn other_documents_are_no_policy() {
    let changes = [
        ("coniks-1", "coniks-2"),
        ("policy", "Policy"),
        ("\n", "\r\n"),
        ("origin keys.example.com/directory", "origin "),
        ("origin keys", "origin  keys"),
        ("keys.example.com", "k\u{e9}ys.example.com"),
        ("Ed25519\n", "Ed25519 \n"),
        ("511a\n", "511A\n"),
        ("511a\n", "511\n"),
        ("511a\n", "511a00\n"),
        ("ECVRF-", "ECVRF_"),
        ("vrf ECVRF-EDWARDS25519-SHA512-TAI", "vrf none"),
        ("epoch-start 1767225600\n", ""),
        ("epoch-period 3600\n", ""),
        ("epoch-period 3600", "epoch-period 0"),
        ("epoch-period 3600", "epoch-period 03600"),
        ("epoch-start 1767225600", "epoch-start 18446744073709551616"),
        ("evidence one-chain\n", ""),
        ("forever\n", "forever"),
        ("forever\n", "forever\n\n"),
        ("forever", "ever"),
        ("forever", "-1"),
    ];
    for (from, to) in changes {
        assert_ne!(POLICY.replace(from, to), POLICY);
        assert_eq!(Policy::read(POLICY.replace(from, to).as_bytes()), Err(PolicyError::Form), "{from:?}, {to:?}");
    }
    for size in 0..POLICY.len() {
        assert_eq!(Policy::read(&POLICY.as_bytes()[..size]), Err(PolicyError::Form));
    }
    let origin = |size| POLICY.replace("keys.example.com/directory", &"x".repeat(size));
    assert!(Policy::read(origin(255).as_bytes()).is_ok() && Policy::read(origin(256).as_bytes()).is_err());
    assert_eq!(Policy::read(&[0xff; 40]), Err(PolicyError::Form));
    let stored = Policy::read(POLICY.replace("forever", "18446744073709551615").as_bytes()).expect("a policy");
    assert_eq!(stored.proofs_kept(), Some(u64::MAX));
}

#[test]
fn the_policy_that_promises_records() {
    let text = POLICY.replace("proofs-kept", "records vouched\nproofs-kept");
    let policy = Policy::read(text.as_bytes()).expect("a policy");
    assert!(policy.records_vouched() && !formats::policy().records_vouched());
    assert_eq!(policy.digest().to_vec(), bytes("5f75a068225cfe181d7149be0081df3d59afc095aeff7f9e3c1fdaca09965a10"));
    assert_eq!((policy.bytes(), policy.proofs_kept()), (text.as_bytes(), None));
    for (from, to) in [
        ("records vouched\n", "records vouched\nrecords vouched\n"),
        ("records vouched", "records any"),
        ("vouched\n", "vouched \n"),
        ("records vouched\nproofs-kept forever\n", "proofs-kept forever\nrecords vouched\n"),
        ("evidence one-chain\nrecords vouched\n", "records vouched\nevidence one-chain\n"),
        ("evidence one-chain\n", ""),
        ("proofs-kept forever\n", ""),
    ] {
        assert_ne!(text.replace(from, to), text);
        assert_eq!(Policy::read(text.replace(from, to).as_bytes()), Err(PolicyError::Form), "{from:?}, {to:?}");
    }
}

#[test]
fn the_succession_of_the_example() {
    let [ending, next] = [formats::ENDING, formats::NEXT].map(|it| Policy::read(it.as_bytes()).expect("a policy"));
    let key = bytes("ec172b93ad5e563bf4932c70e1245034c35467ef2efd4d64ebf819683467e2bf");
    assert_eq!((ending.successor_key().map(|it| it.to_vec()), next.successor_key()), (Some(key), None));
    let it = Succession::read(formats::SUCCESSION.as_bytes()).expect("a succession");
    assert_eq!((it.policy, it.next_policy, it.text().as_str()), (ending.digest(), next.digest(), formats::SUCCESSION));
    assert_eq!((it.last.epoch, it.first.epoch), (2, 2));
    for (from, to) in [
        ("coniks-1", "coniks-2"),
        ("last-epoch 2", "last-epoch 0"),
        ("first-epoch 2", "first-epoch 18446744073709551616"),
        ("next-policy 2f", "next-policy 2F"),
        ("\nsignature ", "\n\nsignature "),
        ("first-link ", "first-link 00"),
    ] {
        assert_ne!(formats::SUCCESSION.replace(from, to), formats::SUCCESSION);
        assert_eq!(Succession::read(formats::SUCCESSION.replace(from, to).as_bytes()), Err(NoSuccession), "{from:?}, {to:?}");
    }
    for size in 0..formats::SUCCESSION.len() {
        assert_eq!(Succession::read(&formats::SUCCESSION.as_bytes()[..size]), Err(NoSuccession));
    }
    let keys = |it: &Policy| Keys::new(it.signing_key(), it.vrf_key().map(|it| &it[..])).expect("points");
    let client = Client::new(keys(&ending), ending, Time::default().settings()).expect("a client");
    let cause = client.succeed(&it, keys(&next), next, &[], Time::default().settings()).unwrap_err().cause;
    assert_eq!(cause, Cause::UnknownEpoch);
}

/// What the example's reply shows, with the key that has one byte.
fn shown(epoch: u64, seen: Option<Watched>, age: i128) -> Found {
    let first_seen = START + PERIOD * (epoch - 1) + 60;
    Found { epoch, key: Some(Arc::from(*b"k")), seen, age: Some(age), first_seen }
}

#[test]
fn the_reply_of_the_example() {
    let (mut client, time) = fed();
    time.set(1000 * PERIOD + 10 * MINUTE + 999);
    assert_eq!(client.lookup("alice", &bytes(REPLY), None), Ok(shown(2, None, 600)));
    assert_eq!(client.lookup("alice", &bytes(REPLY), Some(2)), Ok(shown(2, None, 600)));
    assert_eq!(client.lookup("alice", &bytes(REPLY), Some(1)).unwrap_err().cause, Cause::OtherEpoch);
    assert_eq!(client.lookup("alice", &bytes(REPLY), Some(3)).unwrap_err().cause, Cause::UnknownEpoch);
    for name in ["Alice", "alice ", "bob", "", "alice\0"] {
        assert_eq!(client.lookup(name, &bytes(REPLY), None).unwrap_err().cause, Cause::VrfProof, "{name:?}");
    }
}

#[test]
fn the_state_of_the_example() {
    let (mut client, time) = (Client::new(keys(), policy(), Time::default().settings()).expect("a client"), Time::default());
    assert_eq!(client.state().len(), 110);
    client = Client::resume(keys(), policy(), &client.state(), time.settings()).expect("its own state");
    client.watch("alice", Some(b"k"), Some(1)).expect("no other name");
    for (epoch, entry) in entries().iter().enumerate() {
        time.set(1000 * PERIOD * epoch as u64 + MINUTE);
        let step = Step { epoch: epoch as u64 + 1, seen: Some(Watched::Missing) };
        assert_eq!(client.feed_catch_up(entry), Ok(vec![step]));
    }
    assert_eq!(client.missing(), [1, 2]);
    assert_eq!(client.lookup("alice", &bytes(REPLY), None), Ok(shown(2, Some(Watched::Same), 60)));
    assert_eq!(client.missing(), [1]);
    assert_eq!(client.state(), bytes(STATE));
    let mut changed = Client::resume(keys(), policy(), &bytes(STATE), time.settings()).expect("a state");
    changed.expect(Some(b"n"), 5).expect("a change");
    assert_eq!(changed.state()[37 + 2 * 218 + 40..], bytes(WATCH));
    let again = Client::resume(keys(), policy(), &changed.state(), time.settings()).expect("a state");
    assert_eq!(again.state(), changed.state());
    let resumed = Client::resume(keys(), policy(), &bytes(STATE), time.settings()).expect("a state");
    assert_eq!((resumed.state(), resumed.missing()), (bytes(STATE), vec![1]));
    assert!(resumed.entries().map(|it| it.to_vec()).eq(entries()));
}

#[test]
fn a_state_whose_last_entry_is_not_signed() {
    let mut state = bytes(STATE);
    state[255 + 145] ^= 1;
    let digest = state.len() - 32;
    state.splice(digest.., bytes(UNSIGNED));
    let refusal = Client::resume(keys(), policy(), &state, Time::default().settings()).unwrap_err();
    assert_eq!(refusal.cause, Cause::StateChain);
}

/// A client with the state of the example that names auditors.
fn marked(auditors: u32) -> Client {
    let digest = bytes(TRUST).try_into().expect("a digest");
    let trust = Some(Trust::new(digest, auditors, 0).expect("a quorum"));
    let settings = Settings { trust, ..Time::default().settings() };
    Client::resume(keys(), policy(), &bytes(MARKED), settings).expect("a state")
}

#[test]
fn auditors_and_alarms_of_the_example() {
    let mut client = marked(2);
    assert_eq!((client.state(), client.confirmed()), (bytes(MARKED), Some(2)));
    assert_eq!((client.is_relied(2), client.is_relied(1)), (Ok(true), Err(Cause::UnknownEpoch.into())));
    assert_eq!(client.alarms(), [Alarm { epoch: 1, seen: Watched::Changed }]);
    client.note(0);
    assert_eq!(client.report(), Ok(Report::Changed(1)));
    client.note(1);
    assert_eq!((client.alarms(), client.report()), (vec![], Ok(Report::Changed(2))));
    let head = client.head().expect("an entry");
    assert_eq!((client.mark(1, &head), client.mark(2, &head)), (Ok(Comparison::Equal), Err(Misuse::NoAuditor)));
    let other = Head { link: [0; 32], ..head };
    assert_eq!(client.mark(0, &other), Ok(Comparison::Differs));
    assert_eq!(client.drop_confirmed(), [0; 0]);
    let others = marked(3);
    assert_eq!((others.confirmed(), others.is_relied(2)), (None, Ok(false)), "the marks are of other auditors");
    assert_eq!(Trust::new([0; 32], 3, 1), Err(Misuse::TooManyFaulty));
}

#[test]
fn a_quorum_drops_what_it_confirms() {
    let (digest, time) = ([7; 32], Time::default());
    let settings = Settings { trust: Some(Trust::new(digest, 4, 1).expect("a quorum")), ..time.settings() };
    let mut client = Client::new(keys(), policy(), settings).expect("a client");
    assert_eq!(client.report(), Err(Misuse::NotWatching));
    client.watch("alice", Some(b"k"), Some(1)).expect("no other name");
    client.feed(entries()).expect("they follow");
    client.history("alice", &bytes(HISTORY)).expect("a history");
    let head = client.head().expect("an entry");
    for auditor in 0..3 {
        assert_eq!((client.confirmed(), client.report()), (None, Ok(Report::Unconfirmed(1, 2))));
        assert_eq!(client.is_relied(2), Ok(false));
        assert_eq!(client.mark(auditor, &head), Ok(Comparison::Equal));
    }
    assert_eq!((client.confirmed(), client.report()), (Some(2), Ok(Report::Good(1, 2))));
    assert_eq!((client.is_relied(1), client.is_relied(2)), (Ok(true), Ok(true)));
    assert_eq!((client.cover(&head), client.entries().len()), (Comparison::Equal, 2), "one auditor confirms nothing");
    assert_eq!((client.drop_confirmed(), client.report(), client.alarms()), (vec![1], Ok(Report::Good(2, 2)), vec![]));
    assert_eq!((client.drop_confirmed(), client.entries().len()), (vec![], 1));
}

/// The core is given verdicts that one module makes.
#[test]
fn verdicts_are_made_in_one_place() {
    let folder = concat!(env!("CARGO_MANIFEST_DIR"), "/src/client");
    let is_making = |text: &str| ["is_signed(", ".index(", "Verdicts {"].iter().any(|it| text.contains(it));
    let files = std::fs::read_dir(folder).expect("a folder").map(|it| it.expect("a file").path());
    let making = files.filter(|it| is_making(&std::fs::read_to_string(it).expect("a text")));
    let mut names: Vec<_> = making.map(|it| it.file_name().expect("a name").to_os_string()).collect();
    names.sort();
    assert_eq!(names, ["schemes.rs", "verdicts.rs"]);
}

#[test]
fn the_history_of_the_example() {
    let (mut client, _) = fed();
    assert_eq!(client.history("alice", &bytes(HISTORY)), Ok(vec![shown(1, None, 3660), shown(2, None, 60)]));
    client.watch("alice", Some(b"K"), Some(2)).expect("no other name");
    let seen = client.history("alice", &bytes(HISTORY)).expect("a history");
    assert_eq!(seen, [shown(1, None, 3660), shown(2, Some(Watched::Changed), 60)]);
    let keys: Vec<_> = seen.iter().map(|it| it.key.clone().expect("a key")).collect();
    assert!(Arc::ptr_eq(&keys[0], &keys[1]), "equal keys are one allocation");
    assert_eq!(client.history("bob", &bytes(HISTORY)).unwrap_err().cause, Cause::VrfProof);
}

#[test]
fn ages_are_compared_in_whole_seconds() {
    let (mut client, time) = fed();
    let mut cause_at = |milliseconds| {
        time.set(milliseconds);
        client.lookup("alice", &bytes(REPLY), None).err().map(|it| it.cause)
    };
    let (begins, two_periods) = (1000 * PERIOD, 2 * 1000 * PERIOD);
    assert_eq!((cause_at(begins + two_periods + 999), cause_at(begins + two_periods + 1000)), (None, Some(Cause::Stale)));
    assert_eq!((cause_at(begins - 300_000), cause_at(begins - 300_001)), (None, Some(Cause::Future)));
    time.set(begins - 1);
    assert_eq!(client.lookup("alice", &bytes(REPLY), None).map(|it| it.age), Ok(Some(-1)));
    time.set(100 * two_periods);
    assert_eq!(client.lookup("alice", &bytes(REPLY), Some(2)).map(|it| it.age), Ok(Some(i128::from(199 * PERIOD))));
}

#[test]
fn limits_are_the_callers() {
    for (max_age, skew, wanted) in [(59, 0, Some(Cause::Stale)), (60, 0, None), (u64::MAX, u64::MAX, None)] {
        let (client, time) = fed();
        let (max_age, skew) = (Some(Duration::from_secs(max_age)), Duration::from_secs(skew));
        let settings = Settings { max_age, skew, ..time.settings() };
        let mut client = Client::resume(keys(), policy(), &client.state(), settings).expect("a state");
        assert_eq!(client.lookup("alice", &bytes(REPLY), None).err().map(|it| it.cause), wanted);
        time.set(0);
        let is_future = client.lookup("alice", &bytes(REPLY), None).is_err_and(|it| it.cause == Cause::Future);
        assert_eq!(is_future, skew.is_zero());
    }
}

#[test]
fn parts_of_a_second_are_left_out_of_a_limit() {
    let (client, time) = fed();
    let (max_age, skew) = (Some(Duration::from_millis(60_250)), Duration::from_millis(300_250));
    let settings = Settings { max_age, skew, ..time.settings() };
    let mut client = Client::resume(keys(), policy(), &client.state(), settings).expect("a state");
    let begins = 1000 * PERIOD;
    for (milliseconds, wanted) in [
        (begins - 300_001, Some(Cause::Future)),
        (begins - 300_000, None),
        (begins + 60_999, None),
        (begins + 61_000, Some(Cause::Stale)),
    ] {
        time.set(milliseconds);
        assert_eq!(client.lookup("alice", &bytes(REPLY), None).err().map(|it| it.cause), wanted, "{milliseconds}");
    }
}

#[test]
fn a_digest_has_no_clock() {
    let time = Time::default();
    time.set(u64::MAX / 2);
    let mut client = Client::new(keys(), policy().digest(), time.settings()).expect("a client");
    assert_eq!(client.feed(entries()).map(|it| it.len()), Ok(2));
    assert_eq!(client.lookup("alice", &bytes(REPLY), None).map(|it| it.age), Ok(None));
    let mut other = Client::new(keys(), [7; 32], time.settings()).expect("a client");
    assert_eq!(other.feed(entries()).unwrap_err().cause, Cause::OtherPolicy);
    assert_eq!(other.entries().len(), 0);
}

/// With `Clone` a type has both implementations, and the call in the test doesn't compile.
trait NotClone<Way> {
    fn is_checked() {}
}

struct IfClone;

impl<T> NotClone<()> for T {}
impl<T: Clone> NotClone<IfClone> for T {}

#[test]
fn a_client_has_no_copy_and_can_move() {
    fn moves<T: Send + Sync>() {}
    <Client as NotClone<_>>::is_checked();
    moves::<Client>();
    let (mut client, _) = fed();
    let found = std::thread::spawn(move || client.lookup("alice", &bytes(REPLY), None)).join().expect("no panic");
    assert!(found.is_ok());
}

/// Returns what it is told to, or panics.
#[derive(Clone, Default)]
struct Scheme {
    result: Arc<AtomicBool>,
    panics: Arc<AtomicBool>,
}

impl Scheme {
    fn printed(&self) -> bool {
        assert!(!self.panics.load(Ordering::Relaxed), "as it is told to");
        self.result.load(Ordering::Relaxed)
    }
}

impl SignatureScheme for Scheme {
    fn verify(&self, _: &[u8; 145], _: &[u8; 64]) -> bool {
        self.printed()
    }
}

impl IndexScheme for Scheme {
    fn index(&self, _: &[u8], _: &[u8]) -> Option<[u8; 32]> {
        self.printed().then_some([7; 32])
    }
}

fn with_schemes(signatures: &Scheme, indices: &Scheme) -> Keys {
    Keys { signing: SigningKey::Scheme(Box::new(signatures.clone())), vrf: VrfKey::Scheme(Box::new(indices.clone())) }
}

#[test]
fn schemes_of_the_caller_decide() {
    let (signatures, indices) = (Scheme::default(), Scheme::default());
    let mut client = Client::new(with_schemes(&signatures, &indices), policy(), Time::default().settings()).expect("a client");
    assert_eq!(client.feed(entries()).unwrap_err().cause, Cause::Signature);
    assert_eq!(client.evidence(&entries()[0]).unwrap_err().cause, Cause::Signature);
    let resumed = Client::resume(with_schemes(&signatures, &indices), policy(), &bytes(STATE), Time::default().settings());
    assert_eq!(resumed.unwrap_err().cause, Cause::StateChain);
    signatures.result.store(true, Ordering::Relaxed);
    assert_eq!(client.feed(entries()).map(|it| it.len()), Ok(2));
    assert_eq!(client.lookup("alice", &bytes(REPLY), Some(2)).unwrap_err().cause, Cause::VrfProof);
    assert_eq!(client.history("alice", &bytes(HISTORY)).unwrap_err().cause, Cause::VrfProof);
    indices.result.store(true, Ordering::Relaxed);
    assert_eq!(client.lookup("alice", &bytes(REPLY), Some(2)).unwrap_err().cause, Cause::RootMismatch);
}

/// Keeps what it is given. Each signature is good, and no proof.
#[derive(Clone, Default)]
struct Recorder(Arc<Mutex<Vec<Vec<u8>>>>);

impl Recorder {
    fn keep(&self, parts: [&[u8]; 2]) {
        self.0.lock().expect("no panic").push(parts.concat());
    }
}

impl SignatureScheme for Recorder {
    fn verify(&self, body: &[u8; 145], signature: &[u8; 64]) -> bool {
        self.keep([body, signature]);
        true
    }
}

impl IndexScheme for Recorder {
    fn index(&self, name: &[u8], proof: &[u8]) -> Option<[u8; 32]> {
        self.keep([name, proof]);
        None
    }
}

#[test]
fn schemes_are_given_what_is_verified() {
    let given = Recorder::default();
    let keys = Keys { signing: SigningKey::Scheme(Box::new(given.clone())), vrf: VrfKey::Scheme(Box::new(given.clone())) };
    let mut client = Client::new(keys, policy(), Time::default().settings()).expect("a client");
    client.feed(entries()).expect("they follow");
    // The reply's entry is kept, and its signature is not verified once more.
    assert_eq!(client.lookup("alice", &bytes(REPLY), Some(2)).unwrap_err().cause, Cause::VrfProof);
    let [first, second] = entries();
    let requested = [&b"alice"[..], &bytes(REPLY)[212..292]].concat();
    assert_eq!(*given.0.lock().expect("no panic"), [first, second, requested]);
}

#[test]
fn without_a_vrf_nothing_is_looked_up() {
    let keys = Keys::new(&bytes(formats::SIGNING_KEY), None).expect("a key");
    let mut client = Client::new(keys, policy().digest(), Time::default().settings()).expect("a client");
    client.feed(entries()).expect("they follow");
    assert_eq!(client.lookup("alice", &bytes(REPLY), Some(2)).unwrap_err().cause, Cause::VrfProof);
}

#[test]
fn a_panic_of_a_scheme_changes_nothing() {
    let scheme = Scheme::default();
    scheme.result.store(true, Ordering::Relaxed);
    let mut client = Client::new(with_schemes(&scheme, &scheme), policy(), Time::default().settings()).expect("a client");
    client.feed(&entries()[..1]).expect("it follows");
    client.watch("alice", Some(b"k"), None).expect("no other name");
    let before = client.state();
    scheme.panics.store(true, Ordering::Relaxed);
    assert!(catch_unwind(AssertUnwindSafe(|| client.feed(&entries()[1..]))).is_err());
    assert!(catch_unwind(AssertUnwindSafe(|| client.lookup("alice", &bytes(REPLY), Some(1)))).is_err());
    scheme.panics.store(false, Ordering::Relaxed);
    assert_eq!(client.state(), before);
    assert_eq!(client.feed(&entries()[1..]).map(|it| it.len()), Ok(1));
}

/// An entry of an epoch with the example's policy digest, signed by nobody.
fn entry_of(epoch: u64, previous_epoch: u64, previous_link: [u8; 32]) -> Vec<u8> {
    let policy = policy().digest();
    let body = Body { version: 1, epoch, previous_epoch, root: [5; 32], previous_link, nonce: [6; 32], policy };
    [&body.bytes()[..], &[0; 64]].concat()
}

/// A client to which each signature is good, at a time in seconds.
fn credulous(document: &str, now: u64) -> Client {
    let scheme = Scheme::default();
    scheme.result.store(true, Ordering::Relaxed);
    let settings = Settings { clock: Box::new(move || Duration::from_secs(now)), ..Default::default() };
    Client::new(with_schemes(&scheme, &scheme), Policy::read(document.as_bytes()).expect("a policy"), settings)
        .expect("a client")
}

#[test]
fn the_last_epoch_number_at_any_time() {
    let document = POLICY.replace("epoch-start 1767225600", "epoch-start 18446744073709551615");
    let document = document.replace("epoch-period 3600", "epoch-period 18446744073709551615");
    let digest = Policy::read(document.as_bytes()).expect("a policy").digest();
    let mut entry = entry_of(u64::MAX, 0, [0; 32]);
    entry[113..145].copy_from_slice(&digest);
    let reply = [&[1][..], &entry, &[0, 0], &[0, 0, 0]].concat();
    for (now, wanted) in [(0, Cause::Future), (u64::MAX, Cause::Future)] {
        let mut client = credulous(&document, now);
        assert_eq!(client.feed([&entry]).map(|it| it.len()), Ok(1));
        assert_eq!(client.lookup("alice", &reply, None).unwrap_err().cause, wanted);
        assert_eq!(client.lookup("alice", &reply, Some(u64::MAX)).unwrap_err().cause, Cause::RootMismatch);
        client.watch("alice", Some(b"k"), Some(u64::MAX)).expect("no other name");
        assert_eq!(client.expect(Some(b"K"), u64::MAX), Err(Misuse::NotLater));
    }
}

/// Two periods are 2^64 seconds: the latest epoch is never too old.
#[test]
fn two_long_periods_do_not_wrap_around() {
    let document = POLICY.replace("epoch-period 3600", "epoch-period 9223372036854775808");
    let digest = Policy::read(document.as_bytes()).expect("a policy").digest();
    let mut entry = entry_of(1, 0, [0; 32]);
    entry[113..145].copy_from_slice(&digest);
    let reply = [&[1][..], &entry, &[0, 0], &[0, 0, 0]].concat();
    for now in [START + 1, u64::MAX] {
        let mut client = credulous(&document, now);
        assert_eq!(client.feed([&entry]).map(|it| it.len()), Ok(1));
        assert_eq!(client.lookup("alice", &reply, None).unwrap_err().cause, Cause::RootMismatch);
    }
}

/// A client to which each signature is good, which watches alice from epoch 1 on, and its clock. It was fed entries with these
/// numbers, under the example's policy with other lines. With `is_digest` it has no document.
fn watching(changes: &[(&str, &str)], is_digest: bool, epochs: &[u64]) -> (Client, Time) {
    let document = changes.iter().fold(POLICY.to_string(), |text, (before, after)| text.replace(before, after));
    let policy = Policy::read(document.as_bytes()).expect("a policy");
    let (scheme, time) = (Scheme::default(), Time::default());
    scheme.result.store(true, Ordering::Relaxed);
    let (digest, keys) = (policy.digest(), with_schemes(&scheme, &scheme));
    let client =
        if is_digest { Client::new(keys, digest, time.settings()) } else { Client::new(keys, policy, time.settings()) };
    let mut client = client.expect("a client");
    client.watch("alice", Some(b"k"), Some(1)).expect("no other name");
    let (mut before, mut before_link) = (0, [0; 32]);
    for &epoch in epochs {
        let mut entry = entry_of(epoch, before, before_link);
        entry[113..145].copy_from_slice(&digest);
        assert_eq!(client.feed([&entry]).map(|it| it.len()), Ok(1));
        (before, before_link) = (epoch, link(&entry).expect("an entry"));
    }
    (client, time)
}

#[test]
fn a_missing_epoch_is_lost_at_a_second() {
    let epochs = [1, 2, 4];
    let (client, time) = watching(&[("kept forever", "kept 9")], false, &epochs);
    // The proofs of epoch 1 end 9 seconds after epoch 2 begins, and those of epoch 2 when epoch 4 is as old.
    let end = 1000 * (PERIOD + 9);
    let two_more = end + 2 * PERIOD * 1000;
    for (now, wanted) in [
        (0, vec![]),
        (end - 1, vec![]),
        (end, vec![1]),
        (two_more - 1, vec![1]),
        (two_more, vec![1, 2]),
        (u64::MAX, vec![1, 2]),
    ] {
        time.set(now);
        assert_eq!(client.lost(), wanted, "{now}");
        assert_eq!(client.missing(), epochs);
    }
    for (stored, is_digest, wanted) in
        [("kept forever", false, vec![]), ("kept 0", false, vec![1, 2]), ("kept 0", true, vec![])]
    {
        let (client, time) = watching(&[("kept forever", stored)], is_digest, &epochs);
        time.set(u64::MAX);
        assert_eq!(client.lost(), wanted, "{stored}");
    }
}

#[test]
fn numbers_of_lost_epochs_are_exact() {
    let most = "18446744073709551615";
    let (start, period) = (format!("epoch-start {most}"), format!("epoch-period {most}"));
    let whole = format!("kept {most}");
    let start_and_all = [("epoch-start 1767225600", &*start), ("epoch-period 3600", &*period), ("kept forever", &*whole)];
    for changes in [&start_and_all[..1], &start_and_all[1..2], &start_and_all[2..], &start_and_all] {
        let changes = [changes, &[("kept forever", "kept 0")]].concat();
        for epochs in [[1, 2], [1, u64::MAX]] {
            let scheme = Scheme::default();
            scheme.result.store(true, Ordering::Relaxed);
            let (client, _) = watching(&changes, false, &epochs);
            let settings = Settings { clock: Box::new(|| Duration::MAX), ..Default::default() };
            let document = changes.iter().fold(POLICY.to_string(), |text, (before, after)| text.replace(before, after));
            let policy = Policy::read(document.as_bytes()).expect("a policy");
            let late = Client::resume(with_schemes(&scheme, &scheme), policy, &client.state(), settings).expect("a client");
            assert_eq!(late.lost(), Vec::<u64>::new(), "{document}");
        }
    }
}

/// Keys of alice, with the roots of trees that have her alone under the nonce and the index of these tests. Python's hashlib
/// computed them.
const ROOTS: [(char, &str); 3] = [
    ('A', "58b32f0de8328c396a8709285860e58644783719082171abc262fe275a4c3aaa"),
    ('B', "7628ec754cdc1990eaabaee114c62dba0ce5dc31dd5fb07faa5036886a5d47ff"),
    ('C', "ba2c322721eac26644ad0d4b13e38348b957bc1f6c9fc565392d8ba44c458407"),
];

/// Alice, who watches her name, in a directory where she has one of these keys at each epoch.
struct Owner {
    client: Client,
    keys: &'static str,
    entries: Vec<Vec<u8>>,
}

impl Owner {
    /// Her client was fed the first epochs, and watches the first key from epoch 1 on.
    fn new(keys: &'static str, fed: usize) -> Self {
        let (mut entries, mut before) = (Vec::new(), [0; 32]);
        for (epoch, key) in (1..).zip(keys.chars()) {
            let (_, root) = ROOTS.iter().find(|it| it.0 == key).expect("a root");
            let mut entry = entry_of(epoch, epoch - 1, before);
            entry[17..49].copy_from_slice(&bytes(root));
            before = link(&entry).expect("an entry");
            entries.push(entry);
        }
        let mut it = Self { client: credulous(POLICY, START), keys, entries };
        it.client.watch("alice", Some(&keys.as_bytes()[..1]), Some(1)).expect("no other name");
        it.feed(0, fed);
        it
    }

    /// Feeds the epochs after one up to another one.
    fn feed(&mut self, after: usize, last: usize) {
        assert_eq!(self.client.feed(&self.entries[after..last]).map(|it| it.len()), Ok(last - after));
    }

    /// Looks her name up at an epoch, and compares what that shows.
    fn sees(&mut self, epoch: usize, wanted: Watched) {
        let key = self.keys.as_bytes()[epoch - 1];
        let proof = [&[2, 0, 0][..], &[4; 32], &[0, 5], b"alice", &[0, 0, 0, 1, key]].concat();
        let reply = [&[1][..], &self.entries[epoch - 1], &[0, 0], &proof].concat();
        let seen = self.client.lookup("alice", &reply, Some(epoch as u64)).map(|it| it.seen);
        assert_eq!(seen, Ok(Some(wanted)), "epoch {epoch}");
    }

    fn expect(&mut self, key: &str, by: u64) -> Result<(), Misuse> {
        self.client.expect(Some(key.as_bytes()), by)
    }

    /// An auditor covers the epochs up to one. Returns how many are kept.
    fn cover(&mut self, epoch: usize) -> usize {
        let head = Head { epoch: epoch as u64, link: link(&self.entries[epoch - 1]).expect("an entry") };
        assert_eq!(self.client.cover(&head), Comparison::Equal);
        self.client.entries().len()
    }
}

#[test]
fn the_old_key_once_more_is_another_one() {
    let mut alice = Owner::new("AABAB", 2);
    alice.sees(1, Watched::Same);
    alice.sees(2, Watched::Same);
    alice.expect("B", 5).expect("a change");
    alice.feed(2, 5);
    alice.sees(3, Watched::Same);
    alice.sees(5, Watched::Same);
    // Epoch 4 is withheld until an auditor covers epoch 3.
    assert_eq!(alice.cover(5), 2);
    alice.sees(4, Watched::Changed);
}

#[test]
fn the_new_key_too_early_is_another_one() {
    let mut alice = Owner::new("ABABC", 1);
    alice.sees(1, Watched::Same);
    alice.expect("B", 4).expect("a change");
    alice.feed(1, 4);
    alice.sees(3, Watched::Same);
    alice.sees(4, Watched::Same);
    // Epoch 2 is withheld until the next change is expected.
    alice.expect("C", 5).expect("a change");
    alice.feed(4, 5);
    alice.sees(2, Watched::Changed);
    alice.sees(5, Watched::Same);
}

#[test]
fn two_changes_in_a_row_stay_the_same() {
    let mut alice = Owner::new("AAABBCC", 3);
    alice.sees(1, Watched::Same);
    alice.sees(3, Watched::Same);
    alice.expect("B", 4).expect("a change");
    alice.feed(3, 5);
    alice.sees(4, Watched::Same);
    alice.expect("C", 6).expect("a change");
    alice.feed(5, 7);
    for epoch in [7, 2, 1, 2, 3, 4, 5, 6, 7] {
        alice.sees(epoch, Watched::Same);
    }
    for (oldest, changes) in [(3, 2), (4, 1), (6, 0)] {
        assert_eq!(alice.cover(oldest), 8 - oldest);
        // Those of a watch without a change, and 21 for each change to a key of one byte.
        assert_eq!(alice.client.state().len(), 110 + 218 * (8 - oldest) + 23 + 21 * changes);
        (oldest..8).for_each(|epoch| alice.sees(epoch, Watched::Same));
    }
}

#[test]
fn a_change_is_over_once_the_latest_epoch_shows_the_new_key() {
    let mut alice = Owner::new("AABC", 1);
    alice.expect("B", 9).expect("a change");
    alice.feed(1, 3);
    alice.sees(2, Watched::Same);
    assert_eq!(alice.expect("C", 9), Err(Misuse::ChangeOpen));
    alice.sees(3, Watched::Same);
    assert_eq!((alice.expect("B", 9), alice.expect("C", 3)), (Err(Misuse::SameKey), Err(Misuse::NotLater)));
    alice.expect("C", 9).expect("a change");
    alice.feed(3, 4);
    alice.sees(4, Watched::Same);
    for (key, wanted) in [(b"A", Ok(())), (b"B", Ok(())), (b"C", Ok(())), (b"D", Err(Misuse::OtherWatch))] {
        assert_eq!(alice.client.watch("alice", Some(key), None), wanted);
    }
}

#[test]
fn a_watch_that_a_caller_can_not_have() {
    let (mut client, _) = fed();
    assert_eq!(client.expect(Some(b"K"), 9), Err(Misuse::NotWatching));
    assert_eq!(client.expect(Some(b""), 9), Err(Misuse::NotWatching));
    assert_eq!(client.watch("", Some(b"k"), None), Err(Misuse::NameLength));
    assert_eq!(client.watch("", Some(b""), None), Err(Misuse::NameLength));
    assert_eq!(client.watch([b'a'; 256], Some(b"k"), None), Err(Misuse::NameLength));
    assert_eq!(client.watch("alice", Some(b""), None), Err(Misuse::KeyLength));
    assert_eq!(client.state(), fed().0.state());
    client.watch("alice", Some(b"k"), Some(1)).expect("no other name");
    let before = client.state();
    assert_eq!(client.watch("alice", Some(b"k"), None), Ok(()));
    assert_eq!(client.watch("alice", Some(b"k"), Some(2)), Err(Misuse::OtherWatch));
    assert_eq!(client.watch("alice", None, None), Err(Misuse::OtherWatch));
    assert_eq!(client.watch("bob", Some(b"k"), None), Err(Misuse::OtherWatch));
    for (key, by, wanted) in
        [(Some(&b""[..]), 9, Misuse::KeyLength), (Some(b"k"), 9, Misuse::SameKey), (Some(b"K"), 2, Misuse::NotLater)]
    {
        assert_eq!(client.expect(key, by), Err(wanted));
    }
    assert_eq!(client.state(), before);
    client.expect(None, 3).expect("a change");
    assert_eq!(client.expect(Some(b"K"), 9), Err(Misuse::ChangeOpen));
    assert_eq!(client.watch("alice", None, None), Ok(()));
}

#[test]
fn evidence_names_both_entries() {
    let mut client = credulous(POLICY, START);
    let first = entry_of(3, 0, [0; 32]);
    client.feed([&first]).expect("it begins the chain");
    let other = entry_of(2, 0, [0; 32]);
    let refusal = client.feed([&other]).unwrap_err();
    let evidence = refusal.evidence.clone().expect("evidence");
    assert_eq!((refusal.cause, refusal.status), (Cause::Equivocation, Some(Error::NotLater)));
    assert_eq!((evidence.mine.to_vec(), evidence.other.to_vec(), evidence.kind), (first.clone(), other, EvidenceKind::Overlap));
    assert_eq!(
        refusal.to_string(),
        "the signed entry and one of the chain convict the provider: keep the evidence, and publish it"
    );
    let reply = [&[1][..], &entry_of(2, 0, [0; 32]), &[0, 0]].concat();
    let refusal = client.lookup("alice", &reply, Some(9)).unwrap_err();
    assert_eq!((refusal.cause, refusal.status), (Cause::Equivocation, None), "evidence comes before an unknown epoch");
    assert_eq!(refusal.evidence, Some(evidence), "of the entry in the reply");
    let later = entry_of(5, 3, [9; 32]);
    let refusal = client.feed([&later]).unwrap_err();
    assert_eq!((refusal.cause, refusal.status, refusal.evidence), (Cause::PreviousLink, Some(Error::PreviousLink), None));
    let head = client.head().expect("an entry");
    assert_eq!(head, Head { epoch: 3, link: link(&first).expect("209 bytes") });
    let compared = [(3, head.link), (3, [0; 32]), (1, head.link), (4, head.link), (0, head.link)];
    let wanted = [Comparison::Equal, Comparison::Differs, Comparison::Differs, Comparison::Unknown, Comparison::Unknown];
    assert_eq!(compared.map(|(epoch, link)| client.compare(&Head { epoch, link })), wanted);
}

#[test]
fn evidence_has_no_time() {
    let settings = Settings { clock: Box::new(|| panic!("the clock is read")), ..Default::default() };
    let client = Client::new(keys(), policy(), settings).expect("a client");
    assert_eq!(client.evidence(&entries()[0]), Ok(None));
}

#[test]
fn a_head_of_another_chain_drops_nothing() {
    let (mut client, _) = fed();
    let head = client.head().expect("an entry");
    let other = Head { link: [0; 32], ..head };
    assert_eq!((client.cover(&other), client.entries().len()), (Comparison::Differs, 2));
    assert_eq!((client.cover(&head), client.entries().len()), (Comparison::Equal, 1));
}

#[test]
fn an_auditor_counts_once() {
    let entry = entries()[1].clone();
    let head = Head { epoch: 2, link: link(&entry).expect("209 bytes") };
    let vouched = |heads: &[(&str, Head)], least| {
        let heads: BTreeMap<String, Head> = heads.iter().map(|(name, head)| (name.to_string(), *head)).collect();
        let least = NonZeroUsize::new(least).expect("not 0");
        Client::vouched(keys(), policy(), &entry, &heads, least, Time::default().settings()).map(|it| it.head())
    };
    let other = Head { link: [0; 32], ..head };
    let earlier = Head { epoch: 1, ..other };
    assert_eq!(vouched(&[("one", head), ("two", head)], 2), Ok(Some(head)));
    assert_eq!(vouched(&[("one", head), ("one", head)], 2).unwrap_err().cause, Cause::NotVouched);
    assert_eq!(vouched(&[("one", head), ("two", earlier)], 2).unwrap_err().cause, Cause::NotVouched);
    assert_eq!(vouched(&[("one", head), ("two", other)], 1).unwrap_err().cause, Cause::AuditorsDiffer);
    assert_eq!(vouched(&[], usize::MAX).unwrap_err().cause, Cause::NotVouched);
}

#[test]
fn keys_that_are_not_those_of_the_policy() {
    let (one, other) = (bytes(formats::SIGNING_KEY), bytes(formats::VRF_KEY));
    for (signing, vrf) in [(&other, Some(&other)), (&one, Some(&one)), (&one, None)] {
        let keys = Keys::new(signing, vrf.map(|it| &it[..])).expect("points");
        let cause = Client::new(keys, policy(), Time::default().settings()).unwrap_err().cause;
        assert_eq!(cause, Cause::PolicyKeys);
    }
    assert_eq!(Keys::new(&[0; 32], Some(&[0; 32])).unwrap_err().cause, Cause::SigningKey);
    assert_eq!(Keys::new(&one, Some(&[0; 32])).unwrap_err().cause, Cause::VrfKey);
}

#[test]
fn causes_have_numbers_and_texts() {
    assert_eq!(Cause::ALL.len(), 63);
    for cause in Cause::ALL {
        let text = cause.to_string();
        assert!(!text.is_empty() && !text.ends_with('.') && text.len() < 160, "{cause:?}");
        assert_eq!(cause.error().map(|it| it as u32), (*cause as u32).lt(&64).then_some(*cause as u32));
    }
    let numbers = [Cause::NoReply as u32, Cause::EndRepeated as u32, Cause::VrfProof as u32, Cause::PolicyKeys as u32];
    assert_eq!(numbers, [64, 76, 87, 114]);
}
