package org.coniks;

import java.time.Duration;
import java.util.*;
import java.util.function.LongSupplier;

/** What a directory publishes, and how a client works. Each call sets something and returns this object; a client takes what is set. */
public final class Settings {
    byte[] document, digest, signingKey, vrfKey, trust;
    SignatureScheme signatures;
    IndexScheme indices;
    LongSupplier clock = () -> System.currentTimeMillis() / 1000;
    long maxAge = -1, skew = 300, auditors, faulty;

    private Settings() {}

    /**
     * Returns the settings of a directory, with the keys of its policy.
     *
     * @param policy the policy
     * @return settings with the defaults
     */
    public static Settings of(Policy policy) {
        Settings it = new Settings();
        it.document = policy.document().array();
        return it.signingKey(policy.signingKey().array()).vrfKey(policy.vrfKey().map(Bytes::array));
    }

    /**
     * Returns the settings of a directory of which there is only the policy digest. It has no clock, and no VRF unless one is set.
     *
     * @param digest the policy digest, 32 bytes
     * @param signingKey the public key of its signatures, 32 bytes
     * @return settings with the defaults
     */
    public static Settings of(byte[] digest, byte[] signingKey) {
        Settings it = new Settings();
        it.digest = Bytes.of32(digest);
        return it.signingKey(signingKey);
    }

    /**
     * Sets the public key of the signatures, which must be that of the policy.
     *
     * @param key the key of Ed25519, 32 bytes
     * @return this
     */
    public Settings signingKey(byte[] key) { signingKey = Bytes.of32(key); return this; }

    /**
     * Sets the public key of the VRF, which must be that of the policy.
     *
     * @param key the key of ECVRF-EDWARDS25519-SHA512-TAI, 32 bytes, or nothing if the directory has no VRF
     * @return this
     */
    public Settings vrfKey(Optional<byte[]> key) { vrfKey = key.map(Bytes::of32).orElse(null); return this; }

    /**
     * Verifies signatures by a scheme of the caller, in place of the signing key.
     *
     * @param scheme the scheme
     * @return this
     */
    public Settings signatures(SignatureScheme scheme) { signatures = Objects.requireNonNull(scheme); return this; }

    /**
     * Verifies where names are stored by a scheme of the caller, in place of the VRF's key.
     *
     * @param scheme the scheme
     * @return this
     */
    public Settings indices(IndexScheme scheme) { indices = Objects.requireNonNull(scheme); return this; }

    /**
     * Names the auditors of which a quorum confirms epochs. By default there are none.
     *
     * @param of what a client needs of their trust document
     * @return this
     */
    public Settings trust(Trust of) { trust = of.digest().array(); auditors = of.auditors(); faulty = of.faulty(); return this; }

    /**
     * Sets how long ago the latest epoch may have begun by the policy's clock. By default these are two periods.
     *
     * @param age at least 0; what is beyond whole seconds is left out
     * @return this
     */
    public Settings maxAge(Duration age) { maxAge = seconds(age); return this; }

    /**
     * Sets how far from now the latest epoch may begin by the policy's clock. By default these are 300 seconds.
     *
     * @param ahead at least 0; what is beyond whole seconds is left out
     * @return this
     */
    public Settings skew(Duration ahead) { skew = seconds(ahead); return this; }

    /**
     * Sets the clock, which must not call the client. By default it is that of the machine.
     *
     * @param seconds returns the Unix time in seconds; one below 0 counts as 0
     * @return this
     */
    public Settings clock(LongSupplier seconds) { clock = Objects.requireNonNull(seconds); return this; }

    private static long seconds(Duration duration) {
        if (duration.isNegative()) throw new IllegalArgumentException("a duration is at least 0");
        return duration.toSeconds();
    }

    /** Asks the schemes of the caller, as they are set at present. */
    Native.Verdicts verdicts() {
        SignatureScheme byKey = signatures;
        IndexScheme byName = indices;
        return (isIndex, first, second) -> isIndex ? byName.index(first, second).map(Bytes::of32).orElse(null)
                : byKey.verify(first, second) ? new byte[Bytes.HASH] : null;
    }
}
