package org.coniks;

import java.util.Optional;
import java.util.OptionalLong;

/**
 * What an accepted reply shows of a name.
 *
 * @param epoch the epoch of the reply, an unsigned number
 * @param key the name's key, nothing if the name is bound to none
 * @param seen what this is for the watched name, {@link Watched#UNWATCHED} for another one
 * @param age how many seconds ago the epoch began by the policy's clock, below 0 if it has not begun, within the limits of a long. Nothing
 *     without a clock.
 * @param firstSeen the Unix time in seconds at which the client accepted the entry
 */
public record Found(long epoch, Optional<Bytes> key, Watched seen, OptionalLong age, long firstSeen) {}
