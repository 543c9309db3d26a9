package org.coniks;

import java.util.Optional;

/** Verifies where names are stored, in place of the VRF. It must not call the client that it is asked by. */
@FunctionalInterface
public interface IndexScheme {
    /**
     * Returns the index of a name if the proof is one of this name. What it throws comes out of the client's call, which accepts nothing
     * then.
     *
     * @param name the name's bytes
     * @param proof the proof, of no byte in a directory without a VRF
     * @return the index, 32 bytes, or nothing if the proof is not valid
     */
    Optional<byte[]> index(byte[] name, byte[] proof);
}
