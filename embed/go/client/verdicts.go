package client

// #include <coniks_core.h>
import "C"

import (
	"unsafe"

	"example.org/coniks"
)

// The verdicts on signatures and VRF proofs, which a client passes to the core. Each of them is made here, and nowhere else. The core
// proves nothing about signatures: an entry or an index that is wrongly taken for valid here is accepted.

// received returns an entry in memory of C with its verdict, as the core takes it.
func (c *Client) received(entry []byte, now C.uint64_t) C.coniks_received {
	return C.coniks_received{entry: text(entry), entry_length: size(entry), signature: c.entryVerdict(entry), time: now}
}

// entryVerdict is the verdict on the signature of an entry. Bytes of another length have none.
func (c *Client) entryVerdict(entry []byte) C.uint32_t {
	if len(entry) == coniks.EntryBytes && c.signatures.Verify(copied(entry[:coniks.BodyBytes]), copied(entry[coniks.BodyBytes:])) {
		return 1
	}
	return 0
}

// succession returns a succession with its verdict, which is that of the successor key of the client's policy.
func (c *Client) succession(it coniks.Succession) C.coniks_succession {
	var verdict C.uint32_t
	if key := c.successor; key != nil && decodeKey(key[:]) != nil && isSigned(key[:], it.Lines(), it.Signature[:]) {
		verdict = 1
	}
	return C.coniks_succession{
		signature: verdict, policy: *bytes32(&it.Policy), last_epoch: C.uint64_t(it.Last.Epoch), last_link: *bytes32(&it.Last.Link),
		next_policy: *bytes32(&it.NextPolicy), first_epoch: C.uint64_t(it.First.Epoch), first_link: *bytes32(&it.First.Link),
	}
}

// replyVerdicts are those on the signature of a reply's entry, if it is needed, and on the VRF proof.
func (c *Client) replyVerdicts(name string, reply []byte, needs C.coniks_needs) C.coniks_verdicts {
	verdicts := c.indexVerdict(name, part(reply, needs.vrf_start, needs.vrf_length))
	if needs.signature == 1 {
		verdicts.signature = c.entryVerdict(part(reply, needs.entry_start, coniks.EntryBytes))
	}
	return verdicts
}

// indexVerdict is that on the VRF proof of a name, with the index.
func (c *Client) indexVerdict(name string, proof []byte) (verdicts C.coniks_verdicts) {
	if index, isValid := c.indices.Index(name, copied(proof)); isValid {
		verdicts.index, verdicts.at = 1, *(*C.coniks_bytes32)(unsafe.Pointer(&index))
	}
	return verdicts
}

// stateVerdicts are those on the signatures of the entries of a state.
func (c *Client) stateVerdicts(state []byte, needs C.coniks_state_needs) []C.uint32_t {
	verdicts := make([]C.uint32_t, 0, int(needs.stored)+1)
	for at := C.size_t(0); at < needs.stored; at++ {
		verdicts = append(verdicts, c.entryVerdict(part(state, needs.entry_start+at*needs.entry_step, coniks.EntryBytes)))
	}
	return verdicts
}

func part(whole []byte, start, length C.size_t) []byte {
	return whole[start : start+length : start+length]
}

func copied(bytes []byte) []byte { return append([]byte(nil), bytes...) }
