// Code generated from formats.toml by scripts/tables. DO NOT EDIT.

package coniks

// #include <coniks.h>
import "C"

// The proof is not accepted.
const (
	ErrTooDeep      Refused = C.CONIKS_E_TOO_DEEP
	ErrNameLength   Refused = C.CONIKS_E_NAME_LENGTH
	ErrKeyLength    Refused = C.CONIKS_E_KEY_LENGTH
	ErrWrongName    Refused = C.CONIKS_E_WRONG_NAME
	ErrOtherIsSame  Refused = C.CONIKS_E_OTHER_IS_SAME
	ErrOtherOffPath Refused = C.CONIKS_E_OTHER_OFF_PATH
	ErrRootMismatch Refused = C.CONIKS_E_ROOT_MISMATCH
)

// The bytes are no proof's.
const (
	ErrNoBytes       Refused = C.CONIKS_E_NO_BYTES
	ErrUnknownKind   Refused = C.CONIKS_E_UNKNOWN_KIND
	ErrCutInCount    Refused = C.CONIKS_E_CUT_IN_COUNT
	ErrCutInSiblings Refused = C.CONIKS_E_CUT_IN_SIBLINGS
	ErrCutInOther    Refused = C.CONIKS_E_CUT_IN_OTHER
	ErrCutInOpening  Refused = C.CONIKS_E_CUT_IN_OPENING
	ErrCutInName     Refused = C.CONIKS_E_CUT_IN_NAME
	ErrCutInKey      Refused = C.CONIKS_E_CUT_IN_KEY
	ErrBytesFollow   Refused = C.CONIKS_E_BYTES_FOLLOW
)

// The entry does not follow the last accepted one.
const (
	ErrVersionUnknown Refused = C.CONIKS_E_VERSION_UNKNOWN
	ErrVersionBack    Refused = C.CONIKS_E_VERSION_BACK
	ErrFirstEpoch     Refused = C.CONIKS_E_FIRST_EPOCH
	ErrNotLater       Refused = C.CONIKS_E_NOT_LATER
	ErrPreviousEpoch  Refused = C.CONIKS_E_PREVIOUS_EPOCH
	ErrPreviousLink   Refused = C.CONIKS_E_PREVIOUS_LINK
	ErrNonceChanged   Refused = C.CONIKS_E_NONCE_CHANGED
	ErrSignature      Refused = C.CONIKS_E_SIGNATURE
)

// The bytes are no entry.
const (
	ErrEntryLength Refused = C.CONIKS_E_ENTRY_LENGTH
)

// There is no head.
const (
	ErrNoEntry Refused = C.CONIKS_E_NO_ENTRY
)
