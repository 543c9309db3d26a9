/* The texts of the statuses of a client. */
#include <string.h>

#include "client_parts.h"

static const struct {
    uint32_t status;
    const char *text;
} TEXTS[] = {
    /* formats.toml: texts */
    {CONIKS_CLIENT_E_NO_REPLY, "the reply has no byte: ask for the reply again"},
    {CONIKS_CLIENT_E_REPLY_VERSION, "the reply has another version than 1: take a later version of this client"},
    {CONIKS_CLIENT_E_CUT_IN_ENTRY, "the reply ends before its entry does: ask for the reply again"},
    {CONIKS_CLIENT_E_CUT_IN_VRF, "the bytes end before the VRF proof does: ask for the reply again"},
    {CONIKS_CLIENT_E_CATCH_UP_LENGTH, "a catch-up has 209 bytes for each entry: ask for it again"},
    {CONIKS_CLIENT_E_NO_HISTORY, "the history has no byte: ask for it again"},
    {CONIKS_CLIENT_E_HISTORY_VERSION, "the history has another version than 1: take a later version of this client"},
    {CONIKS_CLIENT_E_CUT_IN_STEP, "the history ends within a step: ask for it again"},
    {CONIKS_CLIENT_E_EPOCH_ORDER, "the epochs of a history must rise: ask another service"},
    {CONIKS_CLIENT_E_UNKNOWN_END, "a step's kind of end is unknown: ask another service"},
    {CONIKS_CLIENT_E_SIBLING_MAP, "a step's map has a spare bit, or lacks a sibling: ask another service"},
    {CONIKS_CLIENT_E_SIBLING_REPEATED, "a step sends a sibling that stays: ask another service"},
    {CONIKS_CLIENT_E_END_REPEATED, "a step sends an end that stays: ask another service"},
    {CONIKS_CLIENT_E_OTHER_POLICY, "the signed entry has another policy digest than the directory's: "
                                   "keep the evidence, and publish it"},
    {CONIKS_CLIENT_E_MALFORMED, "no chain has the signed entry: keep the evidence, and publish it"},
    {CONIKS_CLIENT_E_EQUIVOCATION, "the signed entry and one of the chain convict the provider: "
                                   "keep the evidence, and publish it"},
    {CONIKS_CLIENT_E_UNKNOWN_EPOCH, "the chain has no entry at this epoch: feed a catch-up first"},
    {CONIKS_CLIENT_E_OTHER_EPOCH, "the reply is of another epoch than the one that was asked for: "
                                  "feed a catch-up, and ask again"},
    {CONIKS_CLIENT_E_STALE, "the latest epoch is too old by the policy's clock: feed a catch-up, or alarm"},
    {CONIKS_CLIENT_E_FUTURE, "the latest epoch has not begun by the policy's clock: see whether the clock is right, or alarm"},
    {CONIKS_CLIENT_E_VRF_PROOF, "the VRF proof is not one of this name: ask for the reply again"},
    {CONIKS_CLIENT_E_SUCCESSION_POLICY, "the succession ends another policy: take the one of this directory"},
    {CONIKS_CLIENT_E_SUCCESSION_SIGNATURE, "the policy's successor key did not sign the succession: "
                                           "ask the directory's operator"},
    {CONIKS_CLIENT_E_NEXT_POLICY, "the succession names another policy to go on: take the policy document that it names"},
    {CONIKS_CLIENT_E_CHAIN_DIFFERS, "the chain has another entry at the succession's last epoch: "
                                    "keep both, and ask auditors for their entry"},
    {CONIKS_CLIENT_E_OTHER_START, "the succession names another first entry of the next chain: take the entry that it names"},
    {CONIKS_CLIENT_E_STATE_LENGTH, "a state has at least 110 bytes: "
                                   "restore the state that was stored last, or start anew with an auditor's head"},
    {CONIKS_CLIENT_E_STATE_VERSION, "the state has another version than 3: "
                                    "take the client that wrote it, or start anew with an auditor's head"},
    {CONIKS_CLIENT_E_STATE_DAMAGED, "the state was changed: "
                                    "restore the state that was stored last, or start anew with an auditor's head"},
    {CONIKS_CLIENT_E_STATE_POLICY, "the state is that of another directory: take the one of this policy"},
    {CONIKS_CLIENT_E_STATE_FORM, "the state is not one of docs/FORMATS.md: "
                                 "restore the state that was stored last, or start anew with an auditor's head"},
    {CONIKS_CLIENT_E_STATE_CHAIN, "the entries in the state are no chain of this directory: "
                                  "restore the state that was stored last, or start anew with an auditor's head"},
    {CONIKS_CLIENT_E_NOT_VOUCHED, "too few auditors have this entry: ask more of them, or take an earlier entry"},
    {CONIKS_CLIENT_E_AUDITORS_DIFFER, "an auditor has another link for this epoch: fetch its entry, and compare"},
    {CONIKS_CLIENT_E_SIGNING_KEY, "the signing key is no point of prime order: take the one of the policy document"},
    {CONIKS_CLIENT_E_VRF_KEY, "the VRF's key is no point of prime order: take the one of the policy document"},
    {CONIKS_CLIENT_E_POLICY_KEYS, "the keys are not those of the policy: take both from its document"},
    /* formats.toml: end */
    {CONIKS_CLIENT_E_POLICY_FORM, "this is no policy document of docs/FORMATS.md: take the bytes that its directory publishes"},
    {CONIKS_CLIENT_E_LEAST, "at least one auditor vouches for an entry"},
    {CONIKS_CLIENT_E_NAME, "a name has 1 to 255 bytes"},
    {CONIKS_CLIENT_E_EXPECTED_KEY, "an expected key has at least one byte, and less than 2^32; NULL expects none"},
    {CONIKS_CLIENT_E_OTHER_WATCH, "this client watches another name or key: expect a change, or make another client"},
    {CONIKS_CLIENT_E_NOT_WATCHING, "no name is watched: watch one first"},
    {CONIKS_CLIENT_E_CHANGE_OPEN, "another change is expected: expect the next one after it is over"},
    {CONIKS_CLIENT_E_SAME_KEY, "the new key is the one that is expected already"},
    {CONIKS_CLIENT_E_NOT_LATER, "this epoch is in the chain: expect the new key by a later one"},
    {CONIKS_CLIENT_E_ROOM, "the results need more room"},
    {CONIKS_CLIENT_E_NO_AUDITOR, "the trust document has no such auditor"},
    {CONIKS_CLIENT_E_NOT_CONFIRMED, "no quorum of auditors confirms this epoch yet: get their heads, or wait"},
    {CONIKS_CLIENT_E_MANY_HEADS, "at most 64 auditors vouch for an entry"},
    {CONIKS_CLIENT_E_QUORUM, "too many auditors may be faulty: three times their number must be less than all"},
    {CONIKS_CLIENT_E_MEMORY, "out of memory"},
    {CONIKS_CLIENT_E_SODIUM, "libsodium can't be initialized"},
    {CONIKS_CLIENT_E_SUCCESSION_FORM, "this is no succession of docs/FORMATS.md: take the bytes that its directory publishes"},
};

size_t coniks_client_text(uint32_t status, uint8_t *text, size_t room)
{
    size_t i, length, written;
    for (i = 0; i < sizeof TEXTS / sizeof TEXTS[0] && TEXTS[i].status != status; i++)
        continue;
    if (i == sizeof TEXTS / sizeof TEXTS[0])
        return coniks_text(status, text, room);
    length = strlen(TEXTS[i].text);
    written = length < room ? length : room ? room - 1 : 0;
    if (room) {
        memcpy(text, TEXTS[i].text, written);
        text[written] = 0;
    }
    return length;
}
