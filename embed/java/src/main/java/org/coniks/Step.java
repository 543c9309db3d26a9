package org.coniks;

/**
 * An entry that was accepted.
 *
 * @param epoch its epoch, an unsigned number
 * @param seen {@link Watched#MISSING} if the epoch must show the watched name, until a reply does. One that is signed again has what was
 *     seen of its epoch.
 */
public record Step(long epoch, Watched seen) {}
