package org.coniks;

import java.nio.*;

/**
 * The head of a chain.
 *
 * @param epoch the epoch of the latest entry, an unsigned number
 * @param link the link of that entry, 32 bytes
 */
public record Head(long epoch, Bytes link) {
    /**
     * Checks the length of the link.
     *
     * @param epoch the epoch of the latest entry
     * @param link the link of that entry
     */
    public Head { Bytes.of32(link.array()); }

    /** Returns the bytes of a coniks_client_head. */
    byte[] row() { return ByteBuffer.allocate(Native.HEAD).order(ByteOrder.nativeOrder()).putLong(epoch).put(link.array()).array(); }
}
