//! The calls of `coniks_core.h`, with lengths in their types. That header says what each of them accepts, returns and writes.

use core::iter::once;
use core::marker::PhantomData;
use core::mem::replace;
use core::ptr::{null, NonNull};
use std::boxed::Box;
use std::vec;
use std::vec::Vec;

/// `SIZE_MAX`, as the place of an entry that convicts alone.
pub const NOWHERE: usize = usize::MAX;

#[repr(C)]
#[derive(Clone, Copy)]
pub struct StoredEntry {
    pub entry: [u8; 209],
    pub first_seen: [u8; 8],
    pub seen: u8,
}

impl Default for StoredEntry {
    fn default() -> Self {
        Self { entry: [0; 209], first_seen: [0; 8], seen: 0 }
    }
}

/// Memory that a struct of C points at, with its length: a boxed slice.
#[repr(C)]
pub struct Memory<T> {
    start: NonNull<T>,
    length: usize,
    elements: PhantomData<T>,
}

// SAFETY: the memory owns its elements, as a boxed slice does.
unsafe impl<T: Send> Send for Memory<T> {}
// SAFETY: as above.
unsafe impl<T: Sync> Sync for Memory<T> {}

impl<T> Memory<T> {
    fn get(&self) -> &[T] {
        // SAFETY: these are the parts of a boxed slice, which the core does not change.
        unsafe { core::slice::from_raw_parts(self.start.as_ptr(), self.length) }
    }

    fn get_mut(&mut self) -> &mut [T] {
        // SAFETY: as above.
        unsafe { core::slice::from_raw_parts_mut(self.start.as_ptr(), self.length) }
    }
}

impl<T> Default for Memory<T> {
    fn default() -> Self {
        Vec::new().into()
    }
}

impl<T> From<Vec<T>> for Memory<T> {
    fn from(elements: Vec<T>) -> Self {
        let elements = NonNull::from(Box::leak(elements.into_boxed_slice()));
        Self { start: elements.cast(), length: elements.len(), elements: PhantomData }
    }
}

impl<T> Drop for Memory<T> {
    fn drop(&mut self) {
        // SAFETY: this is the boxed slice that the memory was made of.
        drop(unsafe { Box::from_raw(NonNull::slice_from_raw_parts(self.start, self.length).as_ptr()) });
    }
}

/// Elements that the core appends and drops: the first ones of the memory.
#[repr(C)]
#[derive(Default)]
pub struct Array<T> {
    memory: Memory<T>,
    count: usize,
}

impl<T: Copy + Default> Array<T> {
    pub fn get(&self) -> &[T] {
        self.memory.get().get(..self.count).unwrap_or_default()
    }

    fn get_mut(&mut self) -> &mut [T] {
        self.memory.get_mut().get_mut(..self.count).unwrap_or_default()
    }

    /// Makes room for more elements, which are written before they count.
    pub fn reserve(&mut self, more: usize) {
        let (needed, room) = (self.count.saturating_add(more), self.memory.length);
        if needed > room {
            let room = needed.max(room.saturating_mul(2));
            let mut larger = Vec::with_capacity(room);
            larger.extend_from_slice(self.memory.get());
            larger.resize(room, T::default());
            self.memory = larger.into();
        }
    }
}

/// Bytes that a struct of C points at.
#[repr(C)]
#[derive(Clone, Copy)]
pub struct Text<'a> {
    start: *const u8,
    length: usize,
    bytes: PhantomData<&'a [u8]>,
}

// SAFETY: it is used as a reference to bytes.
unsafe impl Send for Text<'_> {}
// SAFETY: as above.
unsafe impl Sync for Text<'_> {}

impl<'a> Text<'a> {
    pub fn of(bytes: &'a [u8]) -> Self {
        Self { start: bytes.as_ptr(), length: bytes.len(), bytes: PhantomData }
    }

    /// Returns the bytes. A pointer to none may be any pointer.
    pub fn get(&self) -> &'a [u8] {
        if self.length == 0 {
            return &[];
        }
        // SAFETY: the core writes only texts that it was given, or parts of a message's bytes, which are there for 'a.
        unsafe { core::slice::from_raw_parts(self.start, self.length) }
    }
}

impl Default for Text<'_> {
    fn default() -> Self {
        Self { start: null(), length: 0, bytes: PhantomData }
    }
}

#[repr(C)]
#[derive(Clone, Copy, Default)]
pub struct Change<'a> {
    pub last_old: u64,
    pub first_new: u64,
    pub key: Text<'a>,
}

#[repr(C)]
#[derive(Clone, Copy, Default)]
pub struct Alarm {
    pub epoch: u64,
    pub seen: u8,
}

#[repr(C)]
#[derive(Clone, Copy, Default)]
pub struct Watch<'a> {
    pub is_watched: u32,
    pub name: Text<'a>,
    pub since: u64,
    pub key: Text<'a>,
}

#[repr(C)]
#[derive(Clone, Copy, Default)]
pub struct Clock {
    pub is_there: u32,
    pub start: u64,
    pub period: u64,
    pub max_age: u64,
    pub skew: u64,
}

#[repr(C)]
#[derive(Clone, Copy, Default)]
pub struct Promise {
    pub is_limited: u32,
    pub seconds: u64,
}

#[repr(C)]
#[derive(Clone, Copy, Default)]
pub struct Rules {
    pub policy: [u8; 32],
    pub trust: [u8; 32],
    pub clock: Clock,
    pub promise: Promise,
    pub quorum: usize,
}

/// A client. The core reads and writes all but the last member.
#[repr(C)]
#[derive(Default)]
pub struct Core {
    pub rules: Rules,
    watch: Watch<'static>,
    pub stored: Array<StoredEntry>,
    changes: Array<Change<'static>>,
    pub alarms: Array<Alarm>,
    marks: Memory<u64>,
    /// The bytes of the watched name and of all keys, which nothing else refers to.
    texts: Memory<u8>,
}

impl Core {
    /// Returns a client that has seen nothing, with a mark for each auditor.
    pub fn new(rules: Rules, auditors: usize) -> Self {
        Self { rules, marks: vec![0; auditors].into(), ..Self::default() }
    }

    pub fn is_watching(&self) -> bool {
        self.watch.is_watched == 1
    }

    /// Returns memory for the watched name, all keys and more bytes.
    fn room_for_texts(&self, more: usize) -> Memory<u8> {
        let keys: usize = self.changes.get().iter().map(|it| it.key.length).sum();
        vec![0; self.watch.name.length + self.watch.key.length + keys + more].into()
    }

    /// Copies the watched name and all keys to memory that has room for them. It allocates nothing.
    fn own_texts(&mut self, mut memory: Memory<u8>) {
        let keys = self.changes.get_mut().iter_mut().map(|it| &mut it.key);
        let mut rest = memory.get_mut();
        for text in once(&mut self.watch.name).chain(once(&mut self.watch.key)).chain(keys) {
            let (own, after) = rest.split_at_mut(text.length);
            own.copy_from_slice(text.get());
            (text.start, rest) = (own.as_ptr(), after);
        }
        self.texts = memory;
    }

    /// Watches a name. An empty key is none.
    pub fn watch(&mut self, name: &[u8], key: &[u8], since: Option<u64>) -> u32 {
        let was_watching = self.is_watching();
        let memory = self.room_for_texts(name.len() + key.len());
        // SAFETY: the client has copies of them before this call returns, which can't panic after the core's.
        let (name, key) = unsafe { (Text::of(kept(name)), Text::of(kept(key))) };
        let wanted = Watch { is_watched: 1, name, since: since.unwrap_or(0), key };
        let status = watch(self, &wanted, since.is_some().into());
        if status == 0 && !was_watching {
            self.own_texts(memory);
        }
        status
    }

    /// Expects a change of the watched key. An empty key is none.
    pub fn expect(&mut self, key: &[u8], by: u64) -> u32 {
        self.changes.reserve(1);
        let memory = self.room_for_texts(key.len());
        // SAFETY: as above.
        let status = expect(self, unsafe { kept(key) }, by);
        if status == 0 {
            self.own_texts(memory);
        }
        status
    }

    /// Drops epochs by the marks. There is room for the alarms. The keys of dropped changes are freed.
    pub fn cover(&mut self, time: u64) -> Covered {
        self.alarms.reserve(self.stored.count);
        let (_, covered) = cover(self, time);
        if covered.changes > 0 {
            self.own_texts(self.room_for_texts(0));
        }
        covered
    }

    /// Drops epochs by a mark that is a quorum of its own.
    pub fn cover_by(&mut self, mark: u64, time: u64) -> Covered {
        let (marks, quorum) = (replace(&mut self.marks, vec![mark].into()), replace(&mut self.rules.quorum, 1));
        let covered = self.cover(time);
        (self.marks, self.rules.quorum) = (marks, quorum);
        covered
    }

    /// Accepts the first entry. The auditors that vouch for it are a quorum of their own.
    pub fn start_by(&mut self, quorum: usize, heads: &[Head], received: &Received<'_>) -> (u32, Why) {
        self.stored.reserve(1);
        let own = replace(&mut self.rules.quorum, quorum);
        let started = start(self, heads, received);
        self.rules.quorum = own;
        started
    }

    /// Goes on after another client, whose name and keys are copied. Returns the place of that one's last epoch.
    pub fn go_on(&mut self, ended: &Core, succession: &Succession, received: &Received<'_>) -> (u32, usize) {
        self.stored.reserve(1);
        self.changes.reserve(1);
        let (status, place) = succeed(ended, succession, received, self);
        if status == 0 {
            self.own_texts(self.room_for_texts(0));
        }
        (status, place)
    }

    /// Reads a state, with the verdicts on its signatures.
    pub fn read_state(&mut self, state: &[u8], needs: &StateNeeds, verdicts: &[u32]) -> u32 {
        self.stored.reserve(needs.stored);
        self.changes.reserve(needs.changes);
        self.alarms.reserve(needs.alarms);
        // SAFETY: the client has copies of its parts before this call returns. All of them are no more bytes than the state, so their
        // number is one that a memory can have.
        let status = state_read(self, unsafe { kept(state) }, verdicts);
        if status == 0 {
            self.own_texts(self.room_for_texts(0));
        }
        status
    }

    /// Returns a client's state. There are fewer than 2^32 epochs, changes, alarms and auditors, which memory could not hold. So both calls
    /// succeed.
    pub fn state(&self) -> Vec<u8> {
        let (_, size) = state_size(self);
        let mut state = vec![0; size];
        let _written = state_write(self, &mut state);
        state
    }
}

/// Returns bytes as the core takes those that it keeps.
///
/// # Safety
///
/// What the core keeps of them may not be used after their life.
unsafe fn kept<'a>(bytes: &[u8]) -> &'a [u8] {
    // SAFETY: the caller sees to it.
    unsafe { core::slice::from_raw_parts(bytes.as_ptr(), bytes.len()) }
}

#[repr(C)]
pub struct Received<'a> {
    pub entry: Text<'a>,
    pub signature: u32,
    pub time: u64,
}

#[repr(C)]
pub struct Asking<'a> {
    pub name: Text<'a>,
    pub reply: Text<'a>,
    pub is_requested: u32,
    pub epoch: u64,
    pub time: u64,
}

#[repr(C)]
#[derive(Default)]
pub struct Verdicts {
    pub signature: u32,
    pub index: u32,
    pub at: [u8; 32],
}

#[repr(C)]
#[derive(Default)]
pub struct Needs {
    pub signature: u32,
    pub entry_start: usize,
    pub vrf_start: usize,
    pub vrf_length: usize,
}

#[repr(C)]
#[derive(Default)]
pub struct Found {
    pub place: usize,
    pub shows: u32,
    pub seen: u32,
    pub key_start: usize,
    pub key_length: usize,
}

#[repr(C)]
#[derive(Default)]
pub struct Why {
    pub status: u32,
    pub kind: u32,
    pub mine: usize,
}

#[repr(C)]
#[derive(Clone, Copy)]
pub struct Head {
    pub is_there: u32,
    pub epoch: u64,
    pub link: [u8; 32],
}

#[repr(C)]
#[derive(Default)]
pub struct Report {
    pub verdict: u32,
    pub from: u64,
    pub to: u64,
}

#[repr(C)]
#[derive(Default)]
pub struct Covered {
    pub epochs: usize,
    pub from: u64,
    pub to: u64,
    pub changes: usize,
    pub alarms: usize,
}

#[repr(C)]
pub struct History<'a> {
    pub name: Text<'a>,
    pub history: Text<'a>,
}

#[repr(C)]
#[derive(Default)]
pub struct HistoryNeeds {
    pub vrf_start: usize,
    pub vrf_length: usize,
}

#[repr(C)]
pub struct Siblings {
    pub strings: [[u8; 32]; 256],
}

#[repr(C)]
#[derive(Clone, Copy, Default)]
pub struct Step<'a> {
    pub place: usize,
    pub key: Text<'a>,
    pub shows: u32,
    pub seen: u32,
}

#[repr(C)]
#[derive(Default)]
pub struct StateNeeds {
    pub stored: usize,
    pub changes: usize,
    pub alarms: usize,
    pub entry_start: usize,
    pub entry_step: usize,
}

#[repr(C)]
pub struct Succession {
    pub signature: u32,
    pub policy: [u8; 32],
    pub last_epoch: u64,
    pub last_link: [u8; 32],
    pub next_policy: [u8; 32],
    pub first_epoch: u64,
    pub first_link: [u8; 32],
}

/// Declares functions of the core, which are called `coniks_core_` and their names there. Each slice is passed as its pointer and its length.
/// A function that returns a status with a value passes a pointer to the value too, as its last one.
macro_rules! calls {
    ($(fn $name:ident $(<$life:lifetime>)? ($($given:tt)*) -> $returned:tt;)*) => {
        $(calls! { @ ($name [$($life)?] $returned) [] [] [] $($given)*, })*
    };
    // What is given moves from the end to three lists: as it is given here, as C takes it, and how it is passed.
    (@ $what:tt [$($own:tt)*] [$($raw:tt)*] [$($passed:tt)*] $it:ident: &mut [$of:ty], $($rest:tt)*) => {
        calls! {
            @ $what [$($own)* $it: &mut [$of],] [$($raw)* $it: *mut $of, _: usize,]
            [$($passed)* $it.as_mut_ptr(), $it.len(),] $($rest)*
        }
    };
    (@ $what:tt [$($own:tt)*] [$($raw:tt)*] [$($passed:tt)*] $it:ident: &$($of_life:lifetime)? [$of:ty], $($rest:tt)*) => {
        calls! {
            @ $what [$($own)* $it: &$($of_life)? [$of],] [$($raw)* $it: *const $of, _: usize,]
            [$($passed)* $it.as_ptr(), $it.len(),] $($rest)*
        }
    };
    (@ $what:tt [$($own:tt)*] [$($raw:tt)*] [$($passed:tt)*] $it:ident: $type:ty, $($rest:tt)*) => {
        calls! { @ $what [$($own)* $it: $type,] [$($raw)* $it: $type,] [$($passed)* $it,] $($rest)* }
    };
    (@ ($name:ident [$($life:lifetime)?] (u32, $value:ty)) [$($own:tt)*] [$($raw:tt)*] [$($passed:tt)*]) => {
        pub fn $name<$($life)?>($($own)*) -> (u32, $value) {
            unsafe extern "C" {
                #[link_name = concat!("coniks_core_", stringify!($name))]
                fn call<$($life)?>($($raw)* value: &mut $value) -> u32;
            }
            let mut value = <$value>::default();
            // SAFETY: all pointers are those of slices and references, with their own lengths; they don't overlap, and are there for the
            // call. The core reads and writes within them, and keeps none beyond the life in its type.
            let status = unsafe { call($($passed)* &mut value) };
            (status, value)
        }
    };
    (@ ($name:ident [$($life:lifetime)?] $returned:ty) [$($own:tt)*] [$($raw:tt)*] [$($passed:tt)*]) => {
        pub fn $name<$($life)?>($($own)*) -> $returned {
            unsafe extern "C" {
                #[link_name = concat!("coniks_core_", stringify!($name))]
                fn call<$($life)?>($($raw)*) -> $returned;
            }
            // SAFETY: as above.
            unsafe { call($($passed)*) }
        }
    };
}

calls! {
    fn feed(core: &mut Core, received: &Received<'_>) -> (u32, Why);
    fn start(core: &mut Core, heads: &[Head], received: &Received<'_>) -> (u32, Why);
    // Afterwards the watch and the change of `next` point at what those of `core` do.
    fn succeed(core: &Core, succession: &Succession, received: &Received<'_>, next: &mut Core) -> (u32, usize);
    fn catch_up(catch_up: &[u8]) -> (u32, usize);
    fn reply_needs(core: &Core, reply: &[u8]) -> (u32, Needs);
    fn lookup(core: &mut Core, asking: &Asking<'_>, verdicts: &Verdicts, found: &mut Found) -> (u32, Why);
    fn history_needs(history: &[u8]) -> (u32, HistoryNeeds);
    // The steps have keys that are parts of the history's bytes.
    fn history<'a>(
        core: &mut Core, asking: &History<'a>, verdicts: &Verdicts, siblings: &mut Siblings, steps: &mut Array<Step<'a>>
    ) -> u32;
    // Afterwards the watch points at what `wanted` does, if no name was watched.
    fn watch(core: &mut Core, wanted: &Watch<'static>, is_since: u32) -> u32;
    fn expect(core: &mut Core, key: &'static [u8], by: u64) -> u32;
    fn compare(core: &Core, epoch: u64, link: &[u8; 32]) -> (u32, usize);
    fn evidence(core: &Core, received: &Received<'_>) -> (u32, Why);
    fn quorum(auditors: usize, faulty: usize) -> usize;
    fn mark(core: &mut Core, place: usize, epoch: u64, link: &[u8; 32]) -> u32;
    fn confirmed(core: &Core) -> (u32, u64);
    fn relied(core: &Core, place: usize) -> u32;
    // Afterwards the watch points at the key of the last change that was dropped.
    fn cover(core: &mut Core, time: u64) -> (u32, Covered);
    fn note(core: &mut Core, epoch: u64) -> u32;
    fn report(core: &Core, time: u64) -> (u32, Report);
    fn lost(core: &Core, time: u64, place: usize) -> u32;
    fn state_size(core: &Core) -> (u32, usize);
    fn state_write(core: &Core, state: &mut [u8]) -> (u32, usize);
    fn state_needs(core: &Core, state: &[u8]) -> (u32, StateNeeds);
    // The watch and the changes have texts that are parts of the state's bytes.
    fn state_read(core: &mut Core, state: &'static [u8], verdicts: &[u32]) -> u32;
}
