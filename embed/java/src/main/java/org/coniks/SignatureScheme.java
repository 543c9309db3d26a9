package org.coniks;

/** Verifies the signatures of one public key, in place of Ed25519. It must not call the client that it is asked by. */
@FunctionalInterface
public interface SignatureScheme {
    /**
     * Returns whether a signature is valid. What it throws comes out of the client's call, which accepts nothing then.
     *
     * @param body the 145 bytes that are signed
     * @param signature 64 bytes
     * @return whether these are a valid signature of the body
     */
    boolean verify(byte[] body, byte[] signature);
}
