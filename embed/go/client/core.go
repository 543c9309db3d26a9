package client

/*
#cgo CFLAGS: -I${SRCDIR}/../../../include
#cgo LDFLAGS: ${SRCDIR}/../../out/libconiks.a
#include <stdlib.h>
#include <string.h>
#include <coniks_core.h>
*/
import "C"

import (
	"encoding/binary"
	"runtime"
	"sort"
	"unsafe"

	"example.org/coniks"
)

// What the core returns beside the numbers of causes.
const (
	noEvidence   = C.CONIKS_NO_EVIDENCE
	nameLength   = C.CONIKS_CORE_E_NAME
	expectedKey  = C.CONIKS_CORE_E_EXPECTED_KEY
	otherWatch   = C.CONIKS_CORE_E_OTHER_WATCH
	notWatching  = C.CONIKS_CORE_E_NOT_WATCHING
	changeOpen   = C.CONIKS_CORE_E_CHANGE_OPEN
	sameKey      = C.CONIKS_CORE_E_SAME_KEY
	notLater     = C.CONIKS_CORE_E_NOT_LATER
	noAuditor    = C.CONIKS_CORE_E_NO_AUDITOR
	notConfirmed = C.CONIKS_CORE_E_NOT_CONFIRMED
	manyHeads    = C.CONIKS_CORE_E_MANY_HEADS
)

const showsKey = 1

// memory is the struct of a client in memory of C, with all that it points at, which the calls of the core write. Nothing here decides
// anything. It is freed after the client: `locked` keeps a client until its call ends.
type memory struct {
	core *C.coniks_core
	// texts has the watched name and the keys.
	texts arena
}

// newMemory returns the memory of a client that has seen nothing.
func newMemory(rules C.coniks_rules, auditors C.size_t) *memory {
	m := &memory{core: zeros[C.coniks_core](1)}
	m.core.rules = rules
	m.core.marks, m.core.mark_count = zeros[C.uint64_t](auditors), auditors
	runtime.SetFinalizer(m, (*memory).free)
	return m
}

func (m *memory) free() {
	m.texts.free()
	C.free(unsafe.Pointer(m.core.stored.items))
	C.free(unsafe.Pointer(m.core.changes.items))
	C.free(unsafe.Pointer(m.core.alarms.items))
	C.free(unsafe.Pointer(m.core.marks))
	C.free(unsafe.Pointer(m.core))
}

// zeros returns memory of C for elements, with all bytes 0. C.malloc ends the program if there is none.
func zeros[T any](count C.size_t) *T {
	if count == 0 {
		return nil
	}
	var one T
	bytes := count * C.size_t(unsafe.Sizeof(one))
	return (*T)(C.memset(C.malloc(bytes), 0, bytes))
}

// reserve makes room for more elements of an array.
func reserve[T any](items **T, room *C.size_t, count, more C.size_t) {
	if count+more <= *room {
		return
	}
	*room = 2*count + more
	smaller := *items
	*items = zeros[T](*room)
	copy(unsafe.Slice(*items, count), unsafe.Slice(smaller, count))
	C.free(unsafe.Pointer(smaller))
}

func (m *memory) stored() []C.coniks_stored_entry {
	return unsafe.Slice(m.core.stored.items, m.core.stored.count)
}

func (m *memory) changes() []C.coniks_change {
	return unsafe.Slice(m.core.changes.items, m.core.changes.count)
}

func (m *memory) alarms() []C.coniks_alarm {
	return unsafe.Slice(m.core.alarms.items, m.core.alarms.count)
}

// latestEpoch is 0 before the first entry.
func (m *memory) latestEpoch() uint64 {
	if m.count() == 0 {
		return 0
	}
	return m.epochAt(m.count() - 1)
}

// placeOf returns the place of an epoch, and one after all places if it is not kept.
func (m *memory) placeOf(epoch uint64) int {
	place := sort.Search(m.count(), func(at int) bool { return m.epochAt(at) >= epoch })
	if place < m.count() && m.epochAt(place) != epoch {
		return m.count()
	}
	return place
}

func (m *memory) count() int { return int(m.core.stored.count) }

// entryAt returns a copy of the entry at a place.
func (m *memory) entryAt(place int) []byte {
	return copied(m.bytesAt(place)[:coniks.EntryBytes])
}

func (m *memory) epochAt(place int) uint64 {
	return binary.BigEndian.Uint64(m.bytesAt(place)[epochStart:])
}

func (m *memory) firstSeenAt(place int) uint64 {
	return binary.BigEndian.Uint64(m.bytesAt(place)[coniks.EntryBytes:])
}

func (m *memory) seenAt(place int) Watched { return Watched(m.stored()[place].seen) }

// bytesAt returns the bytes of the stored epoch at a place.
func (m *memory) bytesAt(place int) []byte {
	return (*[C.sizeof_coniks_stored_entry]byte)(unsafe.Pointer(&m.stored()[place]))[:]
}

// arena has memory of C that is freed together.
type arena []unsafe.Pointer

// bytes returns a copy of bytes in memory of C, at which structs of C may point.
func (a *arena) bytes(given []byte) []byte {
	held := unsafe.Slice(roomIn[byte](a, size(given)), len(given))
	copy(held, given)
	return held
}

// text returns a copy of bytes with their number.
func (a *arena) text(given []byte) (*C.uint8_t, C.size_t) {
	return text(a.bytes(given)), size(given)
}

// move copies bytes, and has a pointer to them point at the copy. A pointer to no byte may be any pointer.
func (a *arena) move(start **C.uint8_t, length C.size_t) {
	if length == 0 {
		*start = nil
		return
	}
	*start, _ = a.text(unsafe.Slice((*byte)(*start), length))
}

func (a *arena) free() {
	for _, block := range *a {
		C.free(block)
	}
}

// roomIn returns memory of an arena for elements.
func roomIn[T any](in *arena, count C.size_t) *T {
	made := zeros[T](count)
	*in = append(*in, unsafe.Pointer(made))
	return made
}

// owning returns the status of a call. If it is 0, the name and the keys may be in the call's arena: the client gets copies.
func (m *memory) owning(status C.uint32_t) C.uint32_t {
	if status == 0 {
		m.own()
	}
	return status
}

// own copies the name and the keys, and frees those that the client had.
func (m *memory) own() {
	var texts arena
	watch := &m.core.watch
	texts.move(&watch.name, watch.name_length)
	texts.move(&watch.key, watch.key_length)
	for at := range m.changes() {
		change := &m.changes()[at]
		texts.move(&change.key, change.key_length)
	}
	m.texts.free()
	m.texts = texts
}

// start returns where elements begin.
func start[T any](elements []T) *T {
	if len(elements) == 0 {
		return nil
	}
	return &elements[0]
}

func text(bytes []byte) *C.uint8_t { return (*C.uint8_t)(start(bytes)) }

func size[T any](elements []T) C.size_t { return C.size_t(len(elements)) }

func bytes32(bytes *[32]byte) *C.coniks_bytes32 { return (*C.coniks_bytes32)(unsafe.Pointer(bytes)) }

// taking is a call of the core that takes an entry.
type taking func(received C.coniks_received) (status C.uint32_t, why C.coniks_why)

func (m *memory) feed(received C.coniks_received) (status C.uint32_t, why C.coniks_why) {
	reserve(&m.core.stored.items, &m.core.stored.room, m.core.stored.count, 1)
	status = C.coniks_core_feed(m.core, &received, &why)
	return status, why
}

// starting returns the call that takes the first entry, for which at least that number of auditors have heads.
func (m *memory) starting(heads map[string]coniks.Head, least int) taking {
	var rows []C.coniks_head
	for _, head := range heads {
		rows = append(rows, C.coniks_head{is_there: 1, epoch: C.uint64_t(head.Epoch), link: *bytes32(&head.Link)})
	}
	return func(received C.coniks_received) (status C.uint32_t, why C.coniks_why) {
		reserve(&m.core.stored.items, &m.core.stored.room, m.core.stored.count, 1)
		quorum := m.core.rules.quorum
		m.core.rules.quorum = C.size_t(least)
		status = C.coniks_core_start(m.core, start(rows), size(rows), &received, &why)
		m.core.rules.quorum = quorum
		return status, why
	}
}

// succeed goes on after another client, whose name and keys are copied. It returns the place of that one's last epoch.
func (m *memory) succeed(ended *memory, succession C.coniks_succession, received C.coniks_received) (status C.uint32_t, place int) {
	reserve(&m.core.stored.items, &m.core.stored.room, m.core.stored.count, 1)
	reserve(&m.core.changes.items, &m.core.changes.room, m.core.changes.count, 1)
	var at C.size_t
	status = m.owning(C.coniks_core_succeed(ended.core, &succession, &received, m.core, &at))
	return status, int(at)
}

// entriesOf returns the entries of a catch-up, which are parts of it.
func entriesOf(catchUp []byte) (entries [][]byte, status C.uint32_t) {
	var count C.size_t
	status = C.coniks_core_catch_up(text(catchUp), size(catchUp), &count)
	for at := 0; at < int(count); at++ {
		entries = append(entries, catchUp[at*coniks.EntryBytes:(at+1)*coniks.EntryBytes])
	}
	return entries, status
}

func (m *memory) replyNeeds(reply []byte) (status C.uint32_t, needs C.coniks_needs) {
	status = C.coniks_core_reply_needs(m.core, text(reply), size(reply), &needs)
	return status, needs
}

// shown is what a reply or a step of a history shows; the key is nil if it shows none.
type shown struct {
	place int
	key   []byte
	seen  Watched
}

// lookup takes a reply in memory of C.
func (m *memory) lookup(name string, reply []byte, epoch *uint64, now C.uint64_t,
	verdicts C.coniks_verdicts) (status C.uint32_t, found shown, why C.coniks_why) {
	var in arena
	defer in.free()
	var raw C.coniks_found
	asking := C.coniks_asking{reply: text(reply), reply_length: size(reply), time: now}
	asking.name, asking.name_length = in.text([]byte(name))
	if epoch != nil {
		asking.is_requested, asking.epoch = 1, C.uint64_t(*epoch)
	}
	status = C.coniks_core_lookup(m.core, &asking, &verdicts, &raw, &why)
	found = shown{place: int(raw.place), seen: Watched(raw.seen)}
	if raw.shows == showsKey {
		found.key = copied(part(reply, raw.key_start, raw.key_length))
	}
	return status, found, why
}

func historyNeeds(history []byte) (status C.uint32_t, needs C.coniks_history_needs) {
	status = C.coniks_core_history_needs(text(history), size(history), &needs)
	return status, needs
}

// history takes a history in memory of C.
func (m *memory) history(name string, history []byte, verdicts C.coniks_verdicts) (C.uint32_t, []shown) {
	var in arena
	defer in.free()
	asking := C.coniks_history{history: text(history), history_length: size(history)}
	asking.name, asking.name_length = in.text([]byte(name))
	var siblings C.coniks_siblings
	room := m.core.stored.count + 1
	steps := C.coniks_steps{items: roomIn[C.coniks_step](&in, room), room: room}
	status := C.coniks_core_history(m.core, &asking, &verdicts, &siblings, &steps)
	return status, shownIn(unsafe.Slice(steps.items, steps.count))
}

// shownIn returns what steps show. A key that a history sends once is one slice, however many steps show it.
func shownIn(steps []C.coniks_step) (all []shown) {
	keys := map[*C.uint8_t][]byte{}
	for at := range steps {
		step := &steps[at]
		one := shown{place: int(step.place), seen: Watched(step.seen)}
		if step.shows == showsKey {
			if keys[step.key] == nil {
				keys[step.key] = part(copied(unsafe.Slice((*byte)(step.key), step.key_length)), 0, step.key_length)
			}
			one.key = keys[step.key]
		}
		all = append(all, one)
	}
	return all
}

func (m *memory) beginWatch(name string, key []byte, since *uint64) C.uint32_t {
	var in arena
	defer in.free()
	wanted := C.coniks_watch{is_watched: 1}
	wanted.name, wanted.name_length = in.text([]byte(name))
	wanted.key, wanted.key_length = in.text(key)
	isSince := C.uint32_t(0)
	if since != nil {
		wanted.since, isSince = C.uint64_t(*since), 1
	}
	return m.owning(C.coniks_core_watch(m.core, &wanted, isSince))
}

func (m *memory) expect(key []byte, by uint64) C.uint32_t {
	var in arena
	defer in.free()
	reserve(&m.core.changes.items, &m.core.changes.room, m.core.changes.count, 1)
	at, length := in.text(key)
	return m.owning(C.coniks_core_expect(m.core, at, length, C.uint64_t(by)))
}

func (m *memory) compare(head coniks.Head) C.uint32_t {
	var place C.size_t
	return C.coniks_core_compare(m.core, C.uint64_t(head.Epoch), bytes32(&head.Link), &place)
}

func (m *memory) evidence(received C.coniks_received) (status C.uint32_t, why C.coniks_why) {
	status = C.coniks_core_evidence(m.core, &received, &why)
	return status, why
}

func (m *memory) markHead(auditor int, head coniks.Head) C.uint32_t {
	return C.coniks_core_mark(m.core, C.size_t(auditor), C.uint64_t(head.Epoch), bytes32(&head.Link))
}

func (m *memory) confirmed() (status C.uint32_t, epoch C.uint64_t) {
	status = C.coniks_core_confirmed(m.core, &epoch)
	return status, epoch
}

func (m *memory) relied(place int) C.uint32_t {
	return C.coniks_core_relied(m.core, C.size_t(place))
}

// cover drops epochs by the marks, and returns how many went. There is room for an alarm of each. The keys of dropped changes are freed.
func (m *memory) cover(now C.uint64_t) int {
	reserve(&m.core.alarms.items, &m.core.alarms.room, m.core.alarms.count, m.core.stored.count)
	var covered C.coniks_covered
	if C.coniks_core_cover(m.core, now, &covered) != 0 {
		return 0
	}
	if covered.changes > 0 {
		m.own()
	}
	return int(covered.epochs)
}

// coverBy is cover with the epoch of one head in place of the marks.
func (m *memory) coverBy(now C.uint64_t, head coniks.Head) int {
	var in arena
	defer in.free()
	marks, count, quorum := m.core.marks, m.core.mark_count, m.core.rules.quorum
	m.core.marks, m.core.mark_count, m.core.rules.quorum = roomIn[C.uint64_t](&in, 1), 1, 1
	*m.core.marks = C.uint64_t(head.Epoch)
	dropped := m.cover(now)
	m.core.marks, m.core.mark_count, m.core.rules.quorum = marks, count, quorum
	return dropped
}

func (m *memory) note(epoch uint64) C.uint32_t {
	return C.coniks_core_note(m.core, C.uint64_t(epoch))
}

func (m *memory) report(now C.uint64_t) (status C.uint32_t, report C.coniks_report) {
	status = C.coniks_core_report(m.core, now, &report)
	return status, report
}

func (m *memory) isLost(now C.uint64_t, place int) bool {
	return C.coniks_core_lost(m.core, now, C.size_t(place)) == 1
}

// state returns the bytes of a state, nil if what is kept has none.
func (m *memory) state() []byte {
	var length C.size_t
	if C.coniks_core_state_size(m.core, &length) != 0 {
		return nil
	}
	out := make([]byte, int(length))
	if C.coniks_core_state_write(m.core, text(out), size(out), &length) != 0 {
		return nil
	}
	return out
}

func (m *memory) stateNeeds(state []byte) (status C.uint32_t, needs C.coniks_state_needs) {
	status = C.coniks_core_state_needs(m.core, text(state), size(state), &needs)
	return status, needs
}

// read takes what a state in memory of C has, which needs so much room.
func (m *memory) read(state []byte, needs C.coniks_state_needs, verdicts []C.uint32_t) C.uint32_t {
	core := m.core
	reserve(&core.stored.items, &core.stored.room, core.stored.count, needs.stored)
	reserve(&core.changes.items, &core.changes.room, core.changes.count, needs.changes)
	reserve(&core.alarms.items, &core.alarms.room, core.alarms.count, needs.alarms)
	return m.owning(C.coniks_core_state_read(core, text(state), size(state), start(verdicts), size(verdicts)))
}
