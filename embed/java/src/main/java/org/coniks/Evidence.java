package org.coniks;

import java.nio.ByteBuffer;
import java.util.Optional;

/**
 * Two signed entries that convict the owner of the signing key: publish them.
 *
 * @param kind why they do
 * @param mine one that the client kept, or {@code other} itself if no chain has it
 * @param other the other one
 */
public record Evidence(Kind kind, Bytes mine, Bytes other) {
    /** Why two entries convict. */
    public enum Kind {
        /** They are two entries of one epoch, or two that follow one entry. */
        OVERLAP,
        /** The policy digest is not that of the directory. */
        OTHER_POLICY,
        /** No chain contains the entry. */
        MALFORMED
    }

    /** Reads a coniks_client_evidence. */
    static Optional<Evidence> of(ByteBuffer out) {
        Bytes mine = Bytes.of(out, Bytes.ENTRY), other = Bytes.of(out, Bytes.ENTRY);
        int kind = out.position(out.position() + Short.BYTES).getInt();
        return kind == 0 ? Optional.empty() : Optional.of(new Evidence(Kind.values()[kind - 1], mine, other));
    }
}
