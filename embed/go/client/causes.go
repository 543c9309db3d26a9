// Code generated from formats.toml by scripts/tables. DO NOT EDIT.

package client

// epochStart is the place of an entry's epoch.
const epochStart = 1

// maxName is the most bytes of a name.
const maxName = 255

// The proof is not accepted.
const (
	TooDeep      Cause = 2
	NameLength   Cause = 3
	KeyLength    Cause = 4
	WrongName    Cause = 5
	OtherIsSame  Cause = 6
	OtherOffPath Cause = 7
	RootMismatch Cause = 8
)

// The bytes are no proof's.
const (
	NoBytes       Cause = 17
	UnknownKind   Cause = 18
	CutInCount    Cause = 19
	CutInSiblings Cause = 20
	CutInOther    Cause = 21
	CutInOpening  Cause = 22
	CutInName     Cause = 23
	CutInKey      Cause = 24
	BytesFollow   Cause = 25
)

// The entry does not follow the last accepted one.
const (
	VersionUnknown Cause = 33
	VersionBack    Cause = 34
	FirstEpoch     Cause = 35
	NotLater       Cause = 36
	PreviousEpoch  Cause = 37
	PreviousLink   Cause = 38
	NonceChanged   Cause = 39
	Signature      Cause = 40
)

// The bytes are no entry.
const (
	EntryLength Cause = 48
)

// The bytes are no reply, no catch-up or no history.
const (
	NoReply         Cause = 64
	ReplyVersion    Cause = 65
	CutInEntry      Cause = 66
	CutInVRF        Cause = 67
	CatchUpLength   Cause = 68
	NoHistory       Cause = 69
	HistoryVersion  Cause = 70
	CutInStep       Cause = 71
	EpochOrder      Cause = 72
	UnknownEnd      Cause = 73
	SiblingMap      Cause = 74
	SiblingRepeated Cause = 75
	EndRepeated     Cause = 76
)

// The reply or the entry is not one that the client can accept.
const (
	OtherPolicy  Cause = 80
	Malformed    Cause = 81
	Equivocation Cause = 82
	UnknownEpoch Cause = 83
	OtherEpoch   Cause = 84
	Stale        Cause = 85
	Future       Cause = 86
	VRFProof     Cause = 87
)

// A client does not go on by this succession.
const (
	SuccessionPolicy    Cause = 88
	SuccessionSignature Cause = 89
	NextPolicy          Cause = 90
	ChainDiffers        Cause = 91
	OtherStart          Cause = 92
)

// The state is not one of this directory.
const (
	StateLength  Cause = 96
	StateVersion Cause = 97
	StateDamaged Cause = 98
	StatePolicy  Cause = 99
	StateForm    Cause = 100
	StateChain   Cause = 101
)

// A client can't begin with this entry.
const (
	NotVouched     Cause = 104
	AuditorsDiffer Cause = 105
)

// A client can't begin under these keys.
const (
	SigningKey Cause = 112
	VRFKey     Cause = 113
	PolicyKeys Cause = 114
)

// causes are the names of docs/FORMATS.md, and the texts of those causes for which the C library has none.
var causes = map[Cause]struct{ name, text string }{
	TooDeep:             {"TooDeep", ""},
	NameLength:          {"NameLength", ""},
	KeyLength:           {"KeyLength", ""},
	WrongName:           {"WrongName", ""},
	OtherIsSame:         {"OtherIsSame", ""},
	OtherOffPath:        {"OtherOffPath", ""},
	RootMismatch:        {"RootMismatch", ""},
	NoBytes:             {"NoBytes", ""},
	UnknownKind:         {"UnknownKind", ""},
	CutInCount:          {"CutInCount", ""},
	CutInSiblings:       {"CutInSiblings", ""},
	CutInOther:          {"CutInOther", ""},
	CutInOpening:        {"CutInOpening", ""},
	CutInName:           {"CutInName", ""},
	CutInKey:            {"CutInKey", ""},
	BytesFollow:         {"BytesFollow", ""},
	VersionUnknown:      {"Version", ""},
	VersionBack:         {"VersionBack", ""},
	FirstEpoch:          {"FirstEpoch", ""},
	NotLater:            {"NotLater", ""},
	PreviousEpoch:       {"PreviousEpoch", ""},
	PreviousLink:        {"PreviousLink", ""},
	NonceChanged:        {"NonceChanged", ""},
	Signature:           {"Signature", ""},
	EntryLength:         {"EntryLength", ""},
	NoReply:             {"NoReply", "the reply has no byte: ask for the reply again"},
	ReplyVersion:        {"ReplyVersion", "the reply has another version than 1: take a later version of this client"},
	CutInEntry:          {"CutInEntry", "the reply ends before its entry does: ask for the reply again"},
	CutInVRF:            {"CutInVrf", "the bytes end before the VRF proof does: ask for the reply again"},
	CatchUpLength:       {"CatchUpLength", "a catch-up has 209 bytes for each entry: ask for it again"},
	NoHistory:           {"NoHistory", "the history has no byte: ask for it again"},
	HistoryVersion:      {"HistoryVersion", "the history has another version than 1: take a later version of this client"},
	CutInStep:           {"CutInStep", "the history ends within a step: ask for it again"},
	EpochOrder:          {"EpochOrder", "the epochs of a history must rise: ask another service"},
	UnknownEnd:          {"UnknownEnd", "a step's kind of end is unknown: ask another service"},
	SiblingMap:          {"SiblingMap", "a step's map has a spare bit, or lacks a sibling: ask another service"},
	SiblingRepeated:     {"SiblingRepeated", "a step sends a sibling that stays: ask another service"},
	EndRepeated:         {"EndRepeated", "a step sends an end that stays: ask another service"},
	OtherPolicy:         {"OtherPolicy", "the signed entry has another policy digest than the directory's: keep the evidence, and publish it"},
	Malformed:           {"Malformed", "no chain has the signed entry: keep the evidence, and publish it"},
	Equivocation:        {"Equivocation", "the signed entry and one of the chain convict the provider: keep the evidence, and publish it"},
	UnknownEpoch:        {"UnknownEpoch", "the chain has no entry at this epoch: feed a catch-up first"},
	OtherEpoch:          {"OtherEpoch", "the reply is of another epoch than the one that was asked for: feed a catch-up, and ask again"},
	Stale:               {"Stale", "the latest epoch is too old by the policy's clock: feed a catch-up, or alarm"},
	Future:              {"Future", "the latest epoch has not begun by the policy's clock: see whether the clock is right, or alarm"},
	VRFProof:            {"VrfProof", "the VRF proof is not one of this name: ask for the reply again"},
	SuccessionPolicy:    {"SuccessionPolicy", "the succession ends another policy: take the one of this directory"},
	SuccessionSignature: {"SuccessionSignature", "the policy's successor key did not sign the succession: ask the directory's operator"},
	NextPolicy:          {"NextPolicy", "the succession names another policy to go on: take the policy document that it names"},
	ChainDiffers:        {"ChainDiffers", "the chain has another entry at the succession's last epoch: keep both, and ask auditors for their entry"},
	OtherStart:          {"OtherStart", "the succession names another first entry of the next chain: take the entry that it names"},
	StateLength:         {"StateLength", "a state has at least 110 bytes: restore the state that was stored last, or start anew with an auditor's head"},
	StateVersion:        {"StateVersion", "the state has another version than 3: take the client that wrote it, or start anew with an auditor's head"},
	StateDamaged:        {"StateDamaged", "the state was changed: restore the state that was stored last, or start anew with an auditor's head"},
	StatePolicy:         {"StatePolicy", "the state is that of another directory: take the one of this policy"},
	StateForm:           {"StateForm", "the state is not one of docs/FORMATS.md: restore the state that was stored last, or start anew with an auditor's head"},
	StateChain:          {"StateChain", "the entries in the state are no chain of this directory: restore the state that was stored last, or start anew with an auditor's head"},
	NotVouched:          {"NotVouched", "too few auditors have this entry: ask more of them, or take an earlier entry"},
	AuditorsDiffer:      {"AuditorsDiffer", "an auditor has another link for this epoch: fetch its entry, and compare"},
	SigningKey:          {"SigningKey", "the signing key is no point of prime order: take the one of the policy document"},
	VRFKey:              {"VrfKey", "the VRF's key is no point of prime order: take the one of the policy document"},
	PolicyKeys:          {"PolicyKeys", "the keys are not those of the policy: take both from its document"},
}
