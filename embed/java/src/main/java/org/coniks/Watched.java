package org.coniks;

/** What an epoch shows of the watched name. */
public enum Watched {
    /** No name is watched, or another one, or the epoch is before the first watched one. */
    UNWATCHED,
    /** The epoch shows the expected key, or none if none is expected. */
    SAME,
    /** The epoch shows another key, or a key though none is expected. */
    CHANGED,
    /** The epoch shows no key, though one is expected. */
    ABSENT,
    /** No reply for the epoch was accepted. */
    MISSING;

    /** By the numbers of the core. */
    private static final Watched[] BY_NUMBER = {UNWATCHED, SAME, null, CHANGED, ABSENT, MISSING};

    static Watched of(int number) { return java.util.Objects.requireNonNull(BY_NUMBER[number]); }
}
