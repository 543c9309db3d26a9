package org.coniks;

import java.nio.ByteBuffer;
import java.util.*;

/**
 * Bytes that nobody can change: a key, a link, a digest or an entry.
 *
 * @param array the bytes, of which each call returns a copy
 */
public record Bytes(byte[] array) {
    static final int HASH = 32, ENTRY = 209;

    /**
     * Copies the bytes.
     *
     * @param array the bytes
     */
    public Bytes { array = array.clone(); }

    /** {@return a copy of the bytes} */
    @Override public byte[] array() { return array.clone(); }

    @Override public boolean equals(Object other) { return other instanceof Bytes it && Arrays.equals(array, it.array); }

    @Override public int hashCode() { return Arrays.hashCode(array); }

    /** Returns the bytes in hexadecimal digits. */
    @Override public String toString() { return HexFormat.of().formatHex(array); }

    static Bytes ofHex(String digits) { return new Bytes(HexFormat.of().parseHex(digits)); }

    /** Reads bytes. */
    static Bytes of(ByteBuffer from, int length) {
        byte[] bytes = new byte[length];
        from.get(bytes);
        return new Bytes(bytes);
    }

    /** Copies an array, of which there must be 32 bytes. */
    static byte[] of32(byte[] bytes) {
        if (bytes.length != HASH) throw new IllegalArgumentException("32 bytes are expected, not " + bytes.length);
        return bytes.clone();
    }
}
