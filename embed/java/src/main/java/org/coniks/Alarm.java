package org.coniks;

/**
 * An epoch of the watched name that was dropped, and not seen as the same.
 *
 * @param epoch the epoch, an unsigned number
 * @param seen {@link Watched#CHANGED}, {@link Watched#ABSENT}, or {@link Watched#MISSING} if it was lost
 */
public record Alarm(long epoch, Watched seen) {}
