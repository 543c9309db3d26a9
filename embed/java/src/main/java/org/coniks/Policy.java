package org.coniks;

import java.nio.charset.StandardCharsets;
import java.util.Optional;
import java.util.OptionalLong;
import java.util.regex.Matcher;
import java.util.regex.Pattern;

/**
 * The policy document of a directory. Its numbers are unsigned. A client reads the document itself.
 *
 * @param document the bytes that the directory publishes
 */
public record Policy(Bytes document) {
    private static final String NUMBER = "(0|[1-9][0-9]{0,19})";
    private static final Pattern LINES = Pattern.compile("policy coniks-1\norigin ([!-~]{1,255})\nsignature Ed25519\n"
            + "signing-key ([0-9a-f]{64})\nvrf (?:none|ECVRF-EDWARDS25519-SHA512-TAI\nvrf-key ([0-9a-f]{64}))\n(?:epoch-start " + NUMBER
            + "\nepoch-period (?!0)" + NUMBER + "\n)?evidence one-chain\n(records vouched\n)?"
            + "(?:successor-key (?!\\2)(none|[0-9a-f]{64})\n)?proofs-kept (?:forever|" + NUMBER + ")\n");

    /**
     * Checks the lines of the document.
     *
     * @param document the bytes that the directory publishes
     * @throws IllegalArgumentException if they are not those of docs/FORMATS.md
     */
    public Policy {
        for (int group : new int[] {4, 5, 8}) number(document, group);
    }

    /**
     * Reads a document.
     *
     * @param document the bytes that the directory publishes
     * @return the policy
     */
    public static Policy read(byte[] document) { return new Policy(new Bytes(document)); }

    private static Optional<String> value(Bytes document, int group) {
        Matcher lines = LINES.matcher(new String(document.array(), StandardCharsets.ISO_8859_1));
        if (!lines.matches()) throw new IllegalArgumentException("this is no policy document of docs/FORMATS.md");
        return Optional.ofNullable(lines.group(group));
    }

    private static OptionalLong number(Bytes document, int group) {
        return value(document, group).stream().mapToLong(Long::parseUnsignedLong).findFirst();
    }

    /** {@return the name of the directory} */
    public String origin() { return value(document, 1).orElseThrow(); }

    /** {@return the public key of its signatures, 32 bytes} */
    public Bytes signingKey() { return value(document, 2).map(Bytes::ofHex).orElseThrow(); }

    /** {@return the public key of its VRF, 32 bytes, or nothing if it has none} */
    public Optional<Bytes> vrfKey() { return value(document, 3).map(Bytes::ofHex); }

    /** {@return the Unix time in seconds at which epoch 1 begins, or nothing without a clock} */
    public OptionalLong epochStart() { return number(document, 4); }

    /** {@return how many seconds an epoch lasts, or nothing without a clock} */
    public OptionalLong epochPeriod() { return number(document, 5); }

    /** {@return whether each key is a record that its owner vouches for} */
    public boolean isVouched() { return value(document, 6).isPresent(); }

    /** {@return the public key that signs a succession, which is kept offline, 32 bytes, or nothing if the directory has none} */
    public Optional<Bytes> successorKey() { return value(document, 7).filter(it -> !it.equals("none")).map(Bytes::ofHex); }

    /** {@return for how many seconds proofs of an epoch are promised after the next one begins, or nothing if for ever} */
    public OptionalLong proofsKept() { return number(document, 8); }
}
