package org.coniks;

import java.nio.charset.StandardCharsets;
import java.util.regex.Matcher;
import java.util.regex.Pattern;

/**
 * What ends the chain of one policy, and names the directory that goes on. Its numbers are unsigned. A client reads and verifies the text
 * itself.
 *
 * @param text the bytes that the directory publishes
 */
public record Succession(Bytes text) {
    private static final String NUMBER = "([1-9][0-9]{0,19})", HASH = "([0-9a-f]{64})";
    private static final Pattern LINES = Pattern.compile("succession coniks-1\npolicy " + HASH + "\nlast-epoch " + NUMBER + "\nlast-link "
            + HASH + "\nnext-policy (?!\\1)" + HASH + "\nfirst-epoch " + NUMBER + "\nfirst-link " + HASH + "\nsignature ([0-9a-f]{128})\n");

    /**
     * Checks the lines of the text.
     *
     * @param text the bytes that the directory publishes
     * @throws IllegalArgumentException if they are not those of docs/FORMATS.md
     */
    public Succession {
        for (int group : new int[] {2, 5}) Long.parseUnsignedLong(value(text, group));
    }

    /**
     * Reads a text.
     *
     * @param text the bytes that the directory publishes
     * @return the succession
     */
    public static Succession read(byte[] text) { return new Succession(new Bytes(text)); }

    private static String value(Bytes text, int group) {
        Matcher lines = LINES.matcher(new String(text.array(), StandardCharsets.ISO_8859_1));
        if (!lines.matches()) throw new IllegalArgumentException("this is no succession of docs/FORMATS.md");
        return lines.group(group);
    }

    private Head head(int epoch, int link) {
        return new Head(Long.parseUnsignedLong(value(text, epoch)), Bytes.ofHex(value(text, link)));
    }

    /** {@return the digest of the policy that ends} */
    public Bytes policy() { return Bytes.ofHex(value(text, 1)); }

    /** {@return the last head of its chain} */
    public Head last() { return head(2, 3); }

    /** {@return the digest of the policy that goes on} */
    public Bytes nextPolicy() { return Bytes.ofHex(value(text, 4)); }

    /** {@return the first head of its chain that counts} */
    public Head first() { return head(5, 6); }
}
