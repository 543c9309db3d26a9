// Generated from formats.toml by scripts/tables.
package org.coniks;

import java.util.Arrays;

/** Why a client refuses something, with its number in docs/FORMATS.md. The text of a {@link Refusal} says also what to do. */
public enum Cause {
    /** The proof has more than 256 siblings. */
    TOO_DEEP(2),
    /** The name is empty or longer than 255 bytes. */
    NAME_LENGTH(3),
    /** The proof's key is empty or longer than 16384 bytes. */
    KEY_LENGTH(4),
    /** The proof's leaf contains another name. */
    WRONG_NAME(5),
    /** The proof's other index is the requested index. */
    OTHER_IS_SAME(6),
    /** The proof's other index isn't on the path to the requested index. */
    OTHER_OFF_PATH(7),
    /** The root computed from the proof isn't the expected root. */
    ROOT_MISMATCH(8),
    /** There are no bytes. */
    NO_BYTES(17),
    /** The first byte is not 0, 1 or 2. */
    UNKNOWN_KIND(18),
    /** The bytes end within the number of siblings. */
    CUT_IN_COUNT(19),
    /** The bytes end within the siblings. */
    CUT_IN_SIBLINGS(20),
    /** The bytes end within the other index or its commitment. */
    CUT_IN_OTHER(21),
    /** The bytes end within the opening. */
    CUT_IN_OPENING(22),
    /** The bytes end within the name or its length. */
    CUT_IN_NAME(23),
    /** The bytes end within the key or its length. */
    CUT_IN_KEY(24),
    /** Bytes follow the proof. */
    BYTES_FOLLOW(25),
    /** The version is neither 1 nor 2. */
    VERSION(33),
    /** The version is lower than that of the entry before. */
    VERSION_BACK(34),
    /** The first epoch is 0. */
    FIRST_EPOCH(35),
    /** The epoch isn't later than that of the entry before. */
    NOT_LATER(36),
    /** The previous epoch isn't that of the entry before. */
    PREVIOUS_EPOCH(37),
    /** The previous link isn't that of the entry before. */
    PREVIOUS_LINK(38),
    /** The version is 1 and the nonce isn't that of the entry before. */
    NONCE_CHANGED(39),
    /** The signature isn't valid for the body, as the caller has verified it. */
    SIGNATURE(40),
    /** The entry isn't 209 bytes long. */
    ENTRY_LENGTH(48),
    /** The reply has no byte. */
    NO_REPLY(64),
    /** The reply's first byte is not 1. */
    REPLY_VERSION(65),
    /** The reply ends before its entry does. */
    CUT_IN_ENTRY(66),
    /** The reply or the history ends within the VRF proof or its length. */
    CUT_IN_VRF(67),
    /** The number of a catch-up's bytes is not a multiple of 209. */
    CATCH_UP_LENGTH(68),
    /** The history has no byte. */
    NO_HISTORY(69),
    /** The history's first byte is not 1. */
    HISTORY_VERSION(70),
    /** The history ends within a step. */
    CUT_IN_STEP(71),
    /** A step's epoch is not greater than the one before. */
    EPOCH_ORDER(72),
    /** The kind of a step's end is greater than 3, or 3 in the first step. */
    UNKNOWN_END(73),
    /** A map has a spare bit, or a sibling is neither sent nor in the step before. */
    SIBLING_MAP(74),
    /** A sibling is sent that equals the one in its place of the step before. */
    SIBLING_REPEATED(75),
    /** An end is sent that equals the one of the step before. */
    END_REPEATED(76),
    /** The signed entry has another policy digest than the directory's. */
    OTHER_POLICY(80),
    /** No chain has the signed entry. */
    MALFORMED(81),
    /** The signed entry and a stored one are evidence. */
    EQUIVOCATION(82),
    /** The chain has no entry at this epoch. */
    UNKNOWN_EPOCH(83),
    /** The reply's body is not that of the client's entry at the requested epoch. */
    OTHER_EPOCH(84),
    /** The latest epoch began too long ago. */
    STALE(85),
    /** The latest epoch begins too far in the future. */
    FUTURE(86),
    /** The VRF proof is not one of this name. */
    VRF_PROOF(87),
    /** The succession ends another policy. */
    SUCCESSION_POLICY(88),
    /** The signature of the succession is not valid, or the policy has no such key. */
    SUCCESSION_SIGNATURE(89),
    /** The succession names another policy to go on. */
    NEXT_POLICY(90),
    /** Another stored entry covers the last epoch. */
    CHAIN_DIFFERS(91),
    /** The succession names another first entry of the next chain. */
    OTHER_START(92),
    /** The state has fewer than 110 bytes. */
    STATE_LENGTH(96),
    /** The state's first byte is not 3. */
    STATE_VERSION(97),
    /** The state's digest is not that of the bytes before it. */
    STATE_DAMAGED(98),
    /** The state's policy digest is not that of the client. */
    STATE_POLICY(99),
    /** A part of the state has a form that no state has, or bytes follow. */
    STATE_FORM(100),
    /** The entries in the state are no chain of this directory. */
    STATE_CHAIN(101),
    /** Fewer auditors than a quorum have the entry's head. */
    NOT_VOUCHED(104),
    /** An auditor has another link for the entry's epoch. */
    AUDITORS_DIFFER(105),
    /** The signing key is no point of prime order. */
    SIGNING_KEY(112),
    /** The VRF's key is no point of prime order. */
    VRF_KEY(113),
    /** The keys are not those of the policy. */
    POLICY_KEYS(114);

    private final int number;

    Cause(int number) { this.number = number; }

    /** {@return the number in docs/FORMATS.md} */
    public int number() { return number; }

    static Cause of(int number) { return Arrays.stream(values()).filter(it -> it.number == number).findAny().orElseThrow(); }
}
