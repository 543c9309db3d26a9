package org.coniks;

/**
 * What to tell the owner of the watched name.
 *
 * @param verdict the first verdict that applies
 * @param first the first epoch that it is about, an unsigned number, 0 if there is none
 * @param last the last such epoch
 */
public record Report(Verdict verdict, long first, long last) {
    /** What a client reports of the watched name. */
    public enum Verdict {
        /** The epoch shows another key, or no key. */
        CHANGED,
        /** The stored epoch is missing, and not lost. */
        MISSING,
        /** The epoch is lost: the policy promises no proof of it any more. */
        LOST,
        /** No stored epoch is watched. */
        UNWATCHED,
        /** Each epoch shows the expected key, but no quorum of auditors confirms the latest one. */
        UNCONFIRMED,
        /** Each epoch shows the expected key, and a quorum of auditors confirms all of them. */
        GOOD
    }
}
