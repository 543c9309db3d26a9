package org.coniks;

/** Whether a head is one of the client's chain. One that differs convicts nobody: fetch its entry, and call {@link Client#evidence}. */
public enum Comparison {
    /** The client keeps an entry with this epoch and link. */
    EQUAL,
    /** The client keeps no entry that covers the epoch. */
    UNKNOWN,
    /** The client keeps another entry that covers the epoch. */
    DIFFERS
}
