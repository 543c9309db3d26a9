package org.coniks;

import java.lang.ref.*;
import java.nio.*;
import java.nio.charset.*;
import java.util.*;
import java.util.function.*;
import java.util.stream.IntStream;
import org.coniks.Native.*;

/**
 * A client of one key directory that can't forget a step: it verifies signatures, the chain, VRF proofs, authentication paths and the asked
 * epoch.
 *
 * <pre>{@code
 * Client client = Client.create(Settings.of(Policy.read(document))); // the policy document that the directory publishes
 * client.feedCatchUp(catchUp);                                       // all entries since the last one
 * Found found = client.lookup("alice", reply);                       // found.key() is alice's key, or nothing
 * }</pre>
 *
 * <p>{@link #feed} takes entries that continue the chain, and {@link #lookup(String, byte[])} a reply whose entry is one of that chain. For
 * anything else they throw a {@link Refusal}, whose cause says why, and keep nothing of what was refused. Signatures are verified first,
 * so what anyone can send is never an alarm. What convicts the provider is the evidence of the refusal: publish it.
 *
 * <p>The owner of a name calls {@link #watch(String, Optional)}, and then each epoch must show the key. {@link #missing} has the epochs for
 * which no reply was accepted, and {@link #lost} those of them that can no longer be verified. Call {@link #expect} before you change the
 * key, and {@link #report} for what to tell the owner. Store {@link #state} after each call that changes it, also after a refusal, and
 * go on with {@link #resume}.
 *
 * <p>If the policy has a clock, the latest epoch must have begun at most {@link Settings#maxAge} ago, and must begin at most
 * {@link Settings#skew} from now. Only {@link #lookup(String, byte[], long)} accepts an older epoch: pass a number of your own, never that
 * of the reply. Without a clock, {@link Found#firstSeen} says since when this client has had the entry.
 *
 * <p>Each accepted entry is kept, until {@link #drop} is called, or {@link #cover} with an auditor's head. Compare heads with auditors and
 * other clients by {@link #compare} and {@link #evidence}. With {@link Settings#trust}, {@link #mark} notes the heads of its auditors, and
 * {@link #isRelied} says whether a quorum of them confirms an epoch.
 *
 * <p>Epochs and times are unsigned numbers in a long. Each array is copied. A null argument is a {@link NullPointerException}. Calls can be
 * made from several threads, and are made one after another. A client that was closed throws an {@link IllegalStateException}, as it does
 * if a scheme or a clock calls it; one that nothing refers to is freed. What is accepted is decided by the proved core; signatures and VRF
 * proofs are verified by libsodium, or by a {@link SignatureScheme} and an {@link IndexScheme}.
 */
public final class Client implements AutoCloseable {
    private static final Cleaner CLEANER = Cleaner.create();
    private static final int SHOWS_KEY = 1, NO_EVIDENCE = 50, NOT_CONFIRMED = 139;

    private final LongSupplier clock;
    private final Verdicts verdicts;
    private final Native inC;
    private final Cleaner.Cleanable cleanable;

    /** Makes a client of a state, of an entry with the heads that vouch for it, or of an entry with a succession. */
    private Client(Settings it, Native ended, byte[] state, byte[] entry, byte[] heads, int least, byte[] text) throws Refusal {
        clock = it.clock;
        verdicts = it.verdicts();
        Object[] given = {it.document, it.digest, it.signingKey, it.vrfKey, it.trust, it.maxAge, it.skew, it.auditors, it.faulty,
            it.signatures == null ? 0 : 1, it.indices == null ? 0 : 1, state, entry, heads, least, text};
        inC = ended == null ? new Native(0, clock, verdicts, given) : ended.next(clock, verdicts, given);
        cleanable = CLEANER.register(this, inC);
    }

    /**
     * Returns a client that has no entry: the first one that it accepts begins the chain.
     *
     * @param settings what the directory publishes
     * @return the client
     * @throws Refusal if a key is no point of prime order, or not that of the policy
     */
    public static Client create(Settings settings) throws Refusal { return new Client(settings, null, null, null, null, 0, null); }

    /**
     * Returns a client that goes on from the state of another one. Its marks are those of the state if that is of the same trust document
     * and as many auditors, else 0.
     *
     * @param settings what the directory publishes
     * @param state what {@link #state} returned
     * @return the client
     * @throws Refusal as {@link #create} does, or if this is no state of this directory
     */
    public static Client resume(Settings settings, byte[] state) throws Refusal {
        return new Client(settings, null, state.clone(), null, null, 0, null);
    }

    /**
     * Returns a client whose chain begins with an entry that auditors have. With {@link Settings#trust}, call {@link #mark} with each head
     * afterwards.
     *
     * @param settings what the directory publishes
     * @param entry the entry
     * @param heads the head of each of at most 64 auditors for the entry's epoch, by its name: get each from the auditor itself
     * @param least how many of them must have the entry, at least 1
     * @return the client
     * @throws Refusal as {@link #create} does, or if the entry is none of this directory, or too few auditors have it
     */
    public static Client vouched(Settings settings, byte[] entry, Map<String, Head> heads, int least) throws Refusal {
        ByteBuffer rows = ByteBuffer.allocate(Native.HEAD * heads.size());
        heads.values().forEach(it -> rows.put(it.row()));
        return new Client(settings, null, null, entry.clone(), rows.array(), Math.max(0, least), null);
    }

    /**
     * Returns a client of the directory that a succession of this one's policy names, which watches the same name. This client stays as it
     * is: if an entry is void, keep one with the succession, and tell the user. A client that has only the digest of its policy knows no
     * successor key.
     *
     * @param succession the succession
     * @param settings what the next directory publishes
     * @param entry the first entry of the next chain that counts
     * @return the client, and the entries of this one that are void
     * @throws Refusal as {@link #create} does, or with the first cause of docs/FORMATS.md, "A succession"
     */
    public Succeeded succeed(Succession succession, Settings settings, byte[] entry) throws Refusal {
        synchronized (inC) {
            try {
                Client next = new Client(settings, inC, null, entry.clone(), null, 0, succession.text().array());
                List<Bytes> entries = entries();
                return new Succeeded(next, entries.subList(next.inC.place() + 1, entries.size()));
            } finally {
                Reference.reachabilityFence(this);
            }
        }
    }

    /** Makes a call. The client is not freed before it ends. */
    private Result call(Call what, int room, Object... given) {
        try {
            return inC.call(what, clock, verdicts, room, given);
        } finally {
            Reference.reachabilityFence(this);
        }
    }

    /** Returns what a call wrote that refuses nothing of a directory. */
    private ByteBuffer written(Result result) {
        try {
            return inC.checked(result);
        } catch (Refusal refusal) {
            throw new AssertionError(refusal);
        }
    }

    /** Reads structs of a size. */
    private static <T> List<T> all(ByteBuffer out, long count, int size, Function<ByteBuffer, T> read) {
        int start = out.position();
        return IntStream.range(0, (int) count).mapToObj(it -> read.apply(out.position(start + size * it))).toList();
    }

    /** Reads structs of which a call returns the number. It writes those for which there is room. */
    private <T> List<T> listed(Call what, int size, Function<ByteBuffer, T> read) {
        synchronized (inC) {
            int room = (int) call(what, 0, 0).value();
            Result result = call(what, size * room, room);
            return all(result.out(), Math.min(result.value(), room), size, read);
        }
    }

    private static byte[] utf8(String name) {
        try {
            ByteBuffer bytes = StandardCharsets.UTF_8.newEncoder().encode(CharBuffer.wrap(name));
            return Bytes.of(bytes, bytes.remaining()).array();
        } catch (CharacterCodingException error) {
            throw new IllegalArgumentException("a name is text, without half of a surrogate pair", error);
        }
    }

    /**
     * Accepts entries that continue the chain, 209 bytes each, or the latest one signed again. After {@link Cause#PREVIOUS_LINK} get the
     * latest entry once more, and feed it before the next one: it may have been signed again.
     *
     * @param entries the entries
     * @return a step for each of them
     * @throws Refusal at the first one that does not; those before it are kept
     */
    public List<Step> feed(List<byte[]> entries) throws Refusal {
        List<Step> steps = new ArrayList<>();
        synchronized (inC) {
            for (byte[] entry : entries) {
                ByteBuffer out = inC.checked(call(Call.FEED, Native.STEP, entry.clone()));
                steps.add(new Step(out.getLong(), Watched.of(out.getInt())));
            }
        }
        return steps;
    }

    /**
     * Accepts the entries of a catch-up, as {@link #feed} does.
     *
     * @param catchUp the bytes
     * @return a step for each entry
     * @throws Refusal if these are no catch-up, and then nothing is stored; else as {@link #feed} does
     */
    public List<Step> feedCatchUp(byte[] catchUp) throws Refusal {
        byte[] given = catchUp.clone();
        long count = inC.checked(call(Call.CATCH_UP, Long.BYTES, given)).getLong();
        return feed(all(ByteBuffer.wrap(given), count, Bytes.ENTRY, it -> Bytes.of(it, Bytes.ENTRY).array()));
    }

    /**
     * Returns what a reply shows of a name at the latest epoch.
     *
     * @param name the name
     * @param reply the reply
     * @return the name's key, or that it has none
     * @throws Refusal with the first cause of docs/FORMATS.md, "A client's lookup"
     */
    public Found lookup(String name, byte[] reply) throws Refusal { return lookup(utf8(name), reply, OptionalLong.empty()); }

    /**
     * Returns what a reply shows of a name at an epoch, however old that is.
     *
     * @param name the name
     * @param reply the reply
     * @param epoch a number of the caller's own, never that of the reply
     * @return the name's key, or that it has none
     * @throws Refusal with the first cause of docs/FORMATS.md, "A client's lookup"
     */
    public Found lookup(String name, byte[] reply, long epoch) throws Refusal { return lookup(utf8(name), reply, OptionalLong.of(epoch)); }

    /**
     * Returns what a reply shows of a name that is given as bytes.
     *
     * @param name the name's bytes
     * @param reply the reply
     * @param epoch a number of the caller's own, never that of the reply, or nothing for the latest epoch
     * @return the name's key, or that it has none
     * @throws Refusal with the first cause of docs/FORMATS.md, "A client's lookup"
     */
    public Found lookup(byte[] name, byte[] reply, OptionalLong epoch) throws Refusal {
        Objects.requireNonNull(epoch);
        return found(inC.checked(call(Call.LOOKUP, Native.FOUND, name.clone(), reply.clone(), epoch)), new HashMap<>());
    }

    /**
     * Returns what a history shows of a name.
     *
     * @param name the name
     * @param history the history
     * @return what each of its epochs shows, in their order
     * @throws Refusal with the first cause of docs/FORMATS.md, "A client's lookup"; nothing of the history is kept then
     */
    public List<Found> history(String name, byte[] history) throws Refusal { return history(utf8(name), history); }

    /**
     * Returns what a history shows of a name, given as bytes.
     *
     * @param name the name's bytes
     * @param history the history
     * @return what each of its epochs shows, in their order
     * @throws Refusal with the first cause of docs/FORMATS.md, "A client's lookup"; nothing of the history is kept then
     */
    public List<Found> history(byte[] name, byte[] history) throws Refusal {
        synchronized (inC) {
            int room = (int) call(Call.COUNT, 0).value();
            Result result = call(Call.HISTORY, Native.FOUND * room, name.clone(), history.clone(), room);
            Map<Long, Bytes> keys = new HashMap<>();
            return all(inC.checked(result), result.out().getLong(result.why()), Native.FOUND, it -> found(it, keys));
        }
    }

    /** Reads a coniks_client_found. The key is a part of the memory, whose address is at its beginning, and may be repeated. */
    private static Found found(ByteBuffer out, Map<Long, Bytes> keys) {
        boolean isKey = out.getInt() == SHOWS_KEY;
        Watched seen = Watched.of(out.getInt());
        long epoch = out.getLong(), key = out.getLong() - out.getLong(0), length = out.getLong(), firstSeen = out.getLong();
        OptionalLong age = padded(out) == 1 ? OptionalLong.of(out.getLong()) : OptionalLong.empty();
        Bytes shown = isKey ? keys.computeIfAbsent(key, start -> Bytes.of(out.position((int) key), (int) length)) : null;
        return new Found(epoch, Optional.ofNullable(shown), seen, age, firstSeen);
    }

    /** Reads a number of four bytes, and leaves out the four after it. */
    private static int padded(ByteBuffer out) {
        int number = out.getInt();
        out.getInt();
        return number;
    }

    /**
     * Returns the head of the latest entry.
     *
     * @return the head, or nothing before the first entry
     */
    public Optional<Head> head() {
        Result result = call(Call.LATEST, Native.HEAD);
        return result.value() == 0 ? Optional.of(new Head(result.out().getLong(), Bytes.of(result.out(), Bytes.HASH))) : Optional.empty();
    }

    /**
     * Returns the entries that are stored.
     *
     * @return the 209 bytes of each, in the order of the chain
     */
    public List<Bytes> entries() {
        synchronized (inC) {
            int count = (int) call(Call.COUNT, 0).value();
            return IntStream.range(0, count).mapToObj(it -> Bytes.of(call(Call.ENTRY, Bytes.ENTRY, it).out(), Bytes.ENTRY)).toList();
        }
    }

    private Comparison compared(Call what, Head head, int auditor) {
        Result result = call(what, 0, head.row(), auditor);
        if (result.value() > Comparison.values().length) written(result);
        return Comparison.values()[(int) result.value() - 1];
    }

    /**
     * Returns whether a head is one of the chain, as far as its entries are kept.
     *
     * @param head the head of an auditor or of another client
     * @return how it compares
     */
    public Comparison compare(Head head) { return compared(Call.COMPARE, head, 0); }

    /**
     * Drops the entries before that of an auditor's head, if that is one of this chain: the auditor's chain has them. Epochs that are
     * missing and not lost stay, with what follows them. Each dropped watched epoch that was not the same leaves an alarm. With
     * {@link Settings#trust} it only compares, since one auditor confirms nothing: call {@link #mark} and {@link #drop}.
     *
     * @param head the auditor's head
     * @return how it compares
     */
    public Comparison cover(Head head) { return compared(Call.COVER, head, 0); }

    /**
     * Compares a head that an auditor cosigned, and remembers its epoch if they are equal. Verify the cosignature first.
     *
     * @param auditor the auditor's place in the trust document, from 0 on
     * @param head the head
     * @return how it compares
     * @throws IllegalArgumentException if the trust document has no such auditor
     */
    public Comparison mark(int auditor, Head head) { return compared(Call.MARK, head, auditor); }

    /**
     * Returns the latest epoch that a quorum of the auditors confirms.
     *
     * @return the epoch, or nothing if there is none
     */
    public OptionalLong confirmed() {
        Result result = call(Call.CONFIRMED, Long.BYTES);
        return result.value() == 0 ? OptionalLong.of(result.out().getLong()) : OptionalLong.empty();
    }

    /**
     * Returns whether a quorum of the auditors confirms a stored epoch.
     *
     * @param epoch the epoch, for example that of what was found
     * @return whether the client may rely on what it shows
     * @throws Refusal if the epoch is not kept
     */
    public boolean isRelied(long epoch) throws Refusal {
        Result result = call(Call.RELIED, 0, epoch);
        return result.value() != NOT_CONFIRMED && inC.checked(result) != null;
    }

    /**
     * Drops the first epochs: those before the confirmed one, and before the first missing one that is not lost. Each watched one that was
     * not seen as the same leaves an alarm. No reply for a dropped epoch is accepted: ask for missing ones first.
     *
     * @return what is dropped
     */
    public Dropped drop() {
        ByteBuffer out = written(call(Call.DROP, Native.COVERED));
        return new Dropped(out.getLong(), out.getLong(), out.getLong());
    }

    /**
     * Returns what convicts the provider together with another one's entry.
     *
     * @param otherEntry the entry
     * @return the evidence, or nothing if nothing does
     * @throws Refusal if the entry is not signed
     */
    public Optional<Evidence> evidence(byte[] otherEntry) throws Refusal {
        Result result = call(Call.EVIDENCE, Native.EVIDENCE, otherEntry.clone());
        return result.value() == NO_EVIDENCE ? Optional.empty() : Evidence.of(inC.checked(result));
    }

    /**
     * Watches the client's own name from the latest epoch on.
     *
     * @param name the name
     * @param key the key that each epoch must show, or nothing if it must show none
     * @throws IllegalArgumentException if no directory has such a name or key
     * @throws IllegalStateException if the client watches another name or key
     */
    public void watch(String name, Optional<byte[]> key) { watch(utf8(name), key, OptionalLong.empty()); }

    /**
     * Watches the client's own name from an epoch on. A client watches one name for its life. The same call once more changes nothing.
     *
     * @param name the name's bytes
     * @param key the key that each epoch must show, or nothing if it must show none
     * @param since the first epoch, or nothing for the latest one
     * @throws IllegalArgumentException if no directory has such a name or key
     * @throws IllegalStateException if the client watches another name or key, or from another epoch on
     */
    public void watch(byte[] name, Optional<byte[]> key, OptionalLong since) {
        written(call(Call.WATCH, 0, name.clone(), key.map(byte[]::clone).orElse(null), Objects.requireNonNull(since)));
    }

    /**
     * Expects the owner's own change of the key: later epochs may show the old or the new key, and from an epoch on only the new one. No
     * epoch may show the old key after one that showed the new key. A change is open until the chain has its epoch or a later one, or an
     * epoch showed its key.
     *
     * @param key the new key, or nothing to expect none
     * @param by the epoch
     * @throws IllegalArgumentException if key or epoch change nothing
     * @throws IllegalStateException if no name is watched, or another change is open
     */
    public void expect(Optional<byte[]> key, long by) { written(call(Call.EXPECT, 0, key.map(byte[]::clone).orElse(null), by)); }

    /**
     * Returns the epochs that must show the watched name, and for which no reply was accepted.
     *
     * @return the epochs, unsigned numbers
     */
    public List<Long> missing() { return listed(Call.MISSING, Long.BYTES, ByteBuffer::getLong); }

    /**
     * Returns the missing epochs of which the policy promises no proof any more, by the clock of the settings. Report that they can no
     * longer be verified, never that they are the same.
     *
     * @return the epochs, unsigned numbers
     */
    public List<Long> lost() { return listed(Call.LOST, Long.BYTES, ByteBuffer::getLong); }

    /**
     * Returns the alarms of dropped epochs, until their owner takes note of them.
     *
     * @return the alarms
     */
    public List<Alarm> alarms() { return listed(Call.ALARMS, Native.ALARM, it -> new Alarm(it.getLong(), Watched.of(it.get()))); }

    /**
     * Takes note of the alarms up to an epoch, which the owner has seen: they are dropped.
     *
     * @param epoch the epoch
     */
    public void note(long epoch) { call(Call.NOTE, 0, epoch); }

    /**
     * Returns what to tell the owner of the watched name. Without {@link Settings#trust} it is never {@link Report.Verdict#GOOD}.
     *
     * @return the report
     * @throws IllegalStateException if no name is watched
     */
    public Report report() {
        ByteBuffer out = written(call(Call.REPORT, Native.REPORT));
        return new Report(Report.Verdict.values()[padded(out) - 1], out.getLong(), out.getLong());
    }

    /**
     * Returns all that the client keeps, for {@link #resume}: 110 bytes, 218 for each epoch, 9 for each alarm, 8 for each auditor, and the
     * watched name.
     *
     * @return the state
     */
    public byte[] state() {
        synchronized (inC) {
            Result none = call(Call.STATE, 0, 0);
            int size = (int) none.out().getLong(none.why());
            return Bytes.of(written(call(Call.STATE, size, size)), size).array();
        }
    }

    /** Frees the client. Closing it once more does nothing. */
    @Override public void close() {
        synchronized (inC) {
            inC.checkIdle();
            cleanable.clean();
        }
    }
}
