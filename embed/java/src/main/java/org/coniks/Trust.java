package org.coniks;

/**
 * What a client needs of a trust document. An auditor's place, from 0 on, is that of its line among theirs.
 *
 * @param digest the SHA-256 of the document
 * @param auditors how many auditors it has
 * @param faulty how many of them may lie or be silent
 */
public record Trust(Bytes digest, int auditors, int faulty) {
    /**
     * Checks the length of the digest. A client checks the numbers.
     *
     * @param digest the SHA-256 of the document
     * @param auditors how many auditors it has
     * @param faulty how many of them may lie or be silent
     */
    public Trust { Bytes.of32(digest.array()); }
}
