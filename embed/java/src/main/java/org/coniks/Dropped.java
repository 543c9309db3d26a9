package org.coniks;

/**
 * What {@link Client#drop} drops.
 *
 * @param epochs how many epochs
 * @param first the first of them, an unsigned number, 0 if there is none
 * @param last the last of them, an unsigned number, 0 if there is none
 */
public record Dropped(long epochs, long first, long last) {}
