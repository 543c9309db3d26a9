package org.coniks.tests;

import java.io.IOException;
import java.lang.ref.WeakReference;
import java.lang.reflect.Field;
import java.nio.ByteBuffer;
import java.nio.charset.StandardCharsets;
import java.nio.file.*;
import java.time.Duration;
import java.util.*;
import java.util.concurrent.*;
import java.util.concurrent.atomic.*;
import java.util.concurrent.locks.LockSupport;
import java.util.function.*;
import java.util.stream.*;
import org.coniks.*;

/**
 * Calls of the client over the examples of docs/FORMATS.md, which a folder has as bytes: what no case can see. Prints what fails, and how
 * many checks passed.
 */
public final class Calls {
    private static final long START = 1767225600, PERIOD = 3600;
    private static final byte[] ALICE = "alice".getBytes(StandardCharsets.US_ASCII), KEY = {'k'}, NEW_KEY = {'n'}, OTHER_KEY = {'l'};

    private static final Set<String> HELPERS = Set.of("check", "same", "said", "throwing", "refused");

    private final Path data;
    private final AtomicLong now = new AtomicLong(START + PERIOD + 60);
    private int passed, failed;

    private Calls(Path data) { this.data = data; }

    /** Something that a call does, and may throw. */
    private interface Act { void run() throws Exception; }

    private void check(boolean isWell, Object what) {
        if (isWell) passed++;
        else {
            failed++;
            System.out.println("FAILED: " + what + " at " + StackWalker.getInstance().walk(it -> it.filter(
                    frame -> !HELPERS.contains(frame.getMethodName())).findFirst().orElseThrow()));
        }
    }

    private <T> void same(T wanted, T found) { check(Objects.equals(wanted, found), found + ", expected " + wanted); }

    /** What an act throws, null if it throws nothing or something else. */
    private <T extends Throwable> T throwing(Class<T> kind, Act act) {
        try {
            act.run();
        } catch (Throwable error) {
            check(kind.isInstance(error), error + ", expected " + kind);
            return kind.isInstance(error) ? kind.cast(error) : null;
        }
        check(false, "nothing is thrown, expected " + kind);
        return null;
    }

    private void refused(Cause cause, Act act) {
        Refusal refusal = throwing(Refusal.class, act);
        if (refusal != null) same(cause, refusal.cause());
    }

    private byte[] read(String name) throws IOException { return Files.readAllBytes(data.resolve(name)); }

    private Settings settings() throws IOException { return Settings.of(Policy.read(read("policy"))).clock(now::get); }

    private Client fed(Settings settings) throws Exception {
        Client client = Client.create(settings);
        client.feedCatchUp(read("entries"));
        return client;
    }

    private List<byte[]> entries() throws IOException {
        byte[] both = read("entries");
        return List.of(Arrays.copyOf(both, 209), Arrays.copyOfRange(both, 209, 418));
    }

    private static Optional<byte[]> some(byte... key) { return Optional.of(key); }

    /** The examples give what docs/FORMATS.md says. */
    private void examples() throws Exception {
        Client client = Client.create(settings());
        same(Optional.empty(), client.head());
        client.watch("alice", some(KEY));
        for (int epoch = 1; epoch <= 2; epoch++) {
            now.set(START + (epoch - 1) * PERIOD + 60);
            same(List.of(new Step(epoch, Watched.MISSING)), client.feed(List.of(entries().get(epoch - 1))));
        }
        same(List.of(1L, 2L), client.missing());
        Found found = client.lookup("alice", read("reply"));
        same(new Found(2, Optional.of(new Bytes(KEY)), Watched.SAME, OptionalLong.of(60), START + PERIOD + 60), found);
        same(found, client.lookup("alice", read("reply"), 2));
        same(found, client.lookup(ALICE, read("reply"), OptionalLong.empty()));
        same(List.of(1L), client.missing());
        same(List.of(), client.lost());
        same(new Bytes(read("watching")), new Bytes(client.state()));
        same(new Report(Report.Verdict.MISSING, 1, 1), client.report());
        List<Found> all = client.history("alice", read("history"));
        same(List.of(1L, 2L), all.stream().map(Found::epoch).toList());
        same(List.of(OptionalLong.of(PERIOD + 60), OptionalLong.of(60)), all.stream().map(Found::age).toList());
        check(all.get(0).key().orElseThrow() == all.get(1).key().orElseThrow(), "a key that a history repeats is one object");
        same(List.of(), client.missing());
        same(new Report(Report.Verdict.UNCONFIRMED, 1, 2), client.report());
        same(entries().stream().map(Bytes::new).toList(), client.entries());
        Client again = Client.resume(settings(), client.state());
        same(new Bytes(client.state()), new Bytes(again.state()));
        same(Optional.of(2L), again.head().map(Head::epoch));
        same(Watched.CHANGED, Client.resume(settings(), changed()).history(ALICE, read("history")).get(1).seen());
    }

    /** A state that expects another key from epoch 1 on. */
    private byte[] changed() throws Exception {
        try (Client client = fed(settings())) {
            client.watch(ALICE, some(OTHER_KEY), OptionalLong.of(1));
            return client.state();
        }
    }

    /** Two auditors confirm an epoch; what is dropped leaves an alarm. */
    private void auditors() throws Exception {
        Settings settings = settings().trust(new Trust(new Bytes(read("trust")), 2, 0));
        Client client = Client.create(settings);
        client.watch("alice", some(OTHER_KEY));
        for (int epoch = 1; epoch <= 2; epoch++) {
            now.set(START + (epoch - 1) * PERIOD + 60);
            client.feed(List.of(entries().get(epoch - 1)));
        }
        client.history("alice", read("history"));
        Head head = client.head().orElseThrow();
        same(Comparison.EQUAL, client.compare(head));
        same(Comparison.DIFFERS, client.compare(new Head(2, new Bytes(new byte[32]))));
        same(Comparison.UNKNOWN, client.compare(new Head(-1, head.link())));
        same(Comparison.EQUAL, client.mark(0, head));
        same(OptionalLong.empty(), client.confirmed());
        same(false, client.isRelied(2));
        same(new Dropped(0, 0, 0), client.drop());
        same(Comparison.EQUAL, client.mark(1, head));
        same(OptionalLong.of(2), client.confirmed());
        same(true, client.isRelied(2));
        same(Comparison.EQUAL, client.cover(head));
        same(2, client.entries().size());
        same(new Dropped(1, 1, 1), client.drop());
        refused(Cause.UNKNOWN_EPOCH, () -> client.isRelied(1));
        same(new Bytes(read("state")), new Bytes(client.state()));
        same(List.of(new Alarm(1, Watched.CHANGED)), client.alarms());
        same(new Report(Report.Verdict.CHANGED, 1, 1), client.report());
        client.note(1);
        same(List.of(), client.alarms());
        same(new Report(Report.Verdict.CHANGED, 2, 2), client.report());
        for (int auditor : new int[] {2, -1, Integer.MIN_VALUE}) throwing(IllegalArgumentException.class, () -> client.mark(auditor, head));
        same(true, Client.resume(settings, client.state()).isRelied(2));
        settings.trust(new Trust(new Bytes(read("trust")), 3, 0));
        same(false, Client.resume(settings, client.state()).isRelied(2));
        for (int[] of : new int[][] {{0, 0}, {3, 1}, {-1, 0}, {4, -1}, {-1, -1}, {Integer.MIN_VALUE, 0}}) {
            Settings wrong = settings().trust(new Trust(new Bytes(new byte[32]), of[0], of[1]));
            throwing(IllegalArgumentException.class, () -> Client.create(wrong));
        }
    }

    /** Each call of a client. */
    private Map<String, Consumer<Client>> calls() throws Exception {
        byte[] reply = read("reply"), history = read("history"), entry = entries().get(1), entries = read("entries");
        Head head = new Head(2, new Bytes(new byte[32]));
        Map<String, Consumer<Client>> calls = new LinkedHashMap<>();
        calls.put("feed", unless(it -> it.feed(List.of(entry))));
        calls.put("feedCatchUp", unless(it -> it.feedCatchUp(entries)));
        calls.put("lookup", unless(it -> it.lookup("alice", reply)));
        calls.put("lookup at an epoch", unless(it -> it.lookup("alice", reply, 2)));
        calls.put("history", unless(it -> it.history("alice", history)));
        calls.put("head", Client::head);
        calls.put("entries", Client::entries);
        calls.put("compare", it -> it.compare(head));
        calls.put("cover", it -> it.cover(head));
        calls.put("mark", it -> it.mark(0, head));
        calls.put("confirmed", Client::confirmed);
        calls.put("isRelied", unless(it -> it.isRelied(2)));
        calls.put("drop", Client::drop);
        calls.put("evidence", unless(it -> it.evidence(entry)));
        calls.put("watch", it -> it.watch("alice", Optional.empty()));
        calls.put("expect", it -> it.expect(Optional.empty(), 9));
        calls.put("missing", Client::missing);
        calls.put("lost", Client::lost);
        calls.put("alarms", Client::alarms);
        calls.put("note", it -> it.note(1));
        calls.put("report", Client::report);
        calls.put("state", Client::state);
        return calls;
    }

    /** A call that can be refused. */
    private interface Refusable { void of(Client client) throws Refusal; }

    private static Consumer<Client> unless(Refusable call) {
        return client -> {
            try {
                call.of(client);
            } catch (Refusal refusal) {
                throw new AssertionError(refusal);
            }
        };
    }

    /** A client that was closed has no call, and can be closed again. */
    private void closing() throws Exception {
        Client client = fed(settings());
        client.close();
        client.close();
        for (var call : calls().entrySet()) {
            IllegalStateException error = throwing(IllegalStateException.class, () -> call.getValue().accept(client));
            check(error != null && "the client is closed".equals(error.getMessage()), call.getKey());
        }
    }

    /** A null argument is a NullPointerException, and changes nothing. */
    private void nothing() throws Exception {
        Client client = fed(settings());
        byte[] before = client.state(), none = null, reply = read("reply");
        Head head = client.head().orElseThrow();
        Settings settings = settings();
        List<Act> acts = List.of(() -> client.feed(null), () -> client.feed(Collections.singletonList(none)),
                () -> client.feedCatchUp(null),
                () -> client.lookup((String) null, reply), () -> client.lookup("alice", null), () -> client.lookup("alice", null, 2),
                () -> client.lookup(none, reply, OptionalLong.empty()), () -> client.lookup(ALICE, reply, null),
                () -> client.history((String) null, reply), () -> client.history(none, reply), () -> client.history("alice", null),
                () -> client.compare(null), () -> client.cover(null), () -> client.mark(0, null), () -> client.evidence(null),
                () -> client.watch(null, Optional.empty()), () -> client.watch("alice", null), () -> client.expect(null, 9),
                () -> client.watch(none, Optional.empty(), OptionalLong.empty()), () -> client.watch(ALICE, Optional.empty(), null),
                () -> Client.create(null), () -> Client.resume(null, before), () -> Client.resume(settings, null),
                () -> Client.vouched(null, before, Map.of(), 1), () -> Client.vouched(settings, null, Map.of("a", head), 1),
                () -> Client.vouched(settings, before, null, 1),
                () -> Client.vouched(settings, before, Collections.singletonMap("a", null), 1),
                () -> Settings.of(null), () -> Settings.of(none, new byte[32]), () -> Settings.of(new byte[32], null),
                () -> settings.signingKey(null), () -> settings.vrfKey(null), () -> settings.signatures(null), () -> settings.indices(null),
                () -> settings.trust(null), () -> settings.clock(null), () -> settings.maxAge(null), () -> settings.skew(null),
                () -> Policy.read(null), () -> new Policy(null), () -> new Bytes(null), () -> new Head(1, null),
                () -> new Trust(null, 1, 0));
        for (Act act : acts) throwing(NullPointerException.class, act);
        same(new Bytes(before), new Bytes(client.state()));
    }

    /** Arrays that are changed later change nothing. */
    private void copies() throws Exception {
        byte[] reply = read("reply"), signingKey = new byte[32], digest = new byte[32], link = new byte[32];
        Client client = fed(settings());
        Found found = client.lookup("alice", reply);
        Arrays.fill(reply, (byte) 0);
        found.key().orElseThrow().array()[0]++;
        same(new Bytes(KEY), found.key().orElseThrow());
        client.entries().get(0).array()[0]++;
        same(new Bytes(entries().get(0)), client.entries().get(0));
        Head head = new Head(1, new Bytes(link));
        link[0]++;
        same(new Head(1, new Bytes(new byte[32])), head);
        same(head.hashCode(), new Head(1, new Bytes(new byte[32])).hashCode());
        check(!new Bytes(link).equals(head.link()) && !head.link().equals(null), "other bytes are equal");
        same("01" + "00".repeat(31), new Bytes(link).toString());
        byte[] key = KEY.clone();
        client.watch("alice", Optional.of(key));
        key[0]++;
        same(Watched.SAME, client.lookup("alice", read("reply")).seen());
        Settings settings = Settings.of(digest, signingKey);
        signingKey[0]++;
        refused(Cause.SIGNING_KEY, () -> Client.create(settings));
        Client one = fed(settings());
        Settings changed = settings();
        Client other = Client.create(changed);
        changed.clock(() -> Long.MAX_VALUE).signatures((body, signature) -> false).trust(new Trust(new Bytes(digest), 1, 0));
        other.feed(entries());
        same(new Bytes(one.state()), new Bytes(other.state()));
    }

    /** What a scheme or a clock throws. */
    private static final class Raised extends RuntimeException {
        private static final long serialVersionUID = 1;
    }

    /** What a scheme throws comes out of the call, and leaves the client as it was. */
    private void throwingSchemes() throws Exception {
        AtomicReference<RuntimeException> raised = new AtomicReference<>();
        Supplier<Boolean> act = () -> {
            if (raised.get() != null) throw raised.get();
            return true;
        };
        byte[] index = new byte[32], entry = entries().get(0), state = changed();
        Settings settings = settings().signatures((body, signature) -> act.get());
        Client client = Client.create(settings.indices((name, proof) -> act.get() ? Optional.of(index) : Optional.empty()));
        client.feed(List.of(entry));
        client.watch("alice", some(KEY));
        byte[] before = client.state();
        raised.set(new Raised());
        Head head = client.head().orElseThrow();
        for (Act call : List.<Act>of(() -> client.feed(List.of(entries().get(1))), () -> client.feedCatchUp(entries().get(1)),
                () -> client.lookup("alice", read("reply")), () -> client.history("alice", read("history")),
                () -> client.evidence(entries().get(1)), () -> Client.resume(settings, state),
                () -> Client.vouched(settings, entry, Map.of("one", head), 1))) {
            check(throwing(Raised.class, call) == raised.get(), "the exception of the scheme");
            same(new Bytes(before), new Bytes(client.state()));
        }
        raised.set(null);
        same(List.of(new Step(2, Watched.MISSING)), client.feed(List.of(entries().get(1))));
        refused(Cause.ROOT_MISMATCH, () -> client.lookup("alice", read("reply")));
        same(2, Client.resume(settings, state).entries().size());
    }

    /** The clock is asked within the call, and can throw too. */
    private void throwingClocks() throws Exception {
        AtomicBoolean isRaising = new AtomicBoolean();
        Settings settings = settings().clock(() -> {
            if (isRaising.get()) throw new Raised();
            return now.get();
        });
        Client client = fed(settings);
        isRaising.set(true);
        throwing(Raised.class, () -> client.lookup("alice", read("reply")));
        throwing(Raised.class, () -> Client.create(settings));
        isRaising.set(false);
        same(new Bytes(KEY), client.lookup("alice", read("reply")).key().orElseThrow());
        now.set(-1);
        Client before = fed(settings);
        same(0L, before.lookup("alice", read("reply"), 2).firstSeen());
    }

    /** A scheme or a clock that calls its client, or closes it, gets an exception. */
    private void reentry() throws Exception {
        AtomicReference<Client> own = new AtomicReference<>();
        List<String> printed = new ArrayList<>();
        var calls = new LinkedHashMap<>(calls());
        calls.put("close", Client::close);
        Runnable all = () -> {
            for (var call : calls.entrySet()) {
                IllegalStateException error = throwing(IllegalStateException.class, () -> call.getValue().accept(own.get()));
                printed.add(error == null ? call.getKey() : error.getMessage());
            }
        };
        Settings settings = settings().signatures((body, signature) -> {
            if (own.get() != null) all.run();
            return true;
        });
        Client client = fed(settings);
        own.set(client);
        client.evidence(entries().get(1));
        same(Collections.nCopies(calls.size(), "a scheme or a clock must not call its client"), printed);
        same(2, client.entries().size());
        Client of = fed(settings().clock(() -> own.get().entries().size() == 2 ? now.get() : 0));
        own.set(of);
        throwing(IllegalStateException.class, of::head);
    }

    /** What a scheme returns counts only if it is what it must be. */
    private void schemes() throws Exception {
        AtomicReference<Optional<byte[]>> index = new AtomicReference<>(Optional.empty());
        AtomicBoolean isSigned = new AtomicBoolean(true);
        List<byte[]> given = new ArrayList<>();
        Settings settings = settings().signatures((body, signature) -> {
            given.addAll(List.of(body, signature));
            return isSigned.get();
        }).indices((name, proof) -> {
            given.addAll(List.of(name.clone(), proof.clone()));
            Arrays.fill(name, (byte) 0);
            Arrays.fill(proof, (byte) 0);
            return index.get();
        });
        Client client = fed(settings);
        same(List.of(145, 64, 145, 64), given.stream().map(it -> it.length).toList());
        same(new Bytes(entries().get(1)), joined(given.get(2), given.get(3)));
        given.clear();
        byte[] before = client.state();
        refused(Cause.VRF_PROOF, () -> client.lookup("alice", read("reply")));
        same(new Bytes(ALICE), new Bytes(given.get(0)));
        same(new Bytes(Arrays.copyOfRange(read("reply"), 212, 292)), new Bytes(given.get(1)));
        for (int length : new int[] {0, 31, 33, 1000}) {
            index.set(Optional.of(new byte[length]));
            throwing(IllegalArgumentException.class, () -> client.lookup("alice", read("reply")));
        }
        index.set(null);
        throwing(NullPointerException.class, () -> client.history("alice", read("history")));
        index.set(Optional.of(new byte[32]));
        refused(Cause.ROOT_MISMATCH, () -> client.lookup("alice", read("reply")));
        index.set(Optional.of(read("index")));
        settings.signatures((body, signature) -> false).indices((name, proof) -> Optional.empty());
        same(new Bytes(KEY), client.lookup("alice", read("reply")).key().orElseThrow());
        same(Optional.empty(), client.evidence(entries().get(1)));
        refused(Cause.SIGNATURE, () -> fed(settings));
        given.clear();
        refused(Cause.WRONG_NAME, () -> client.lookup("zo\u00eb \ud83d\ude00", read("reply")));
        same(new Bytes("zo\u00eb \ud83d\ude00".getBytes(StandardCharsets.UTF_8)), new Bytes(given.get(0)));
        isSigned.set(false);
        byte[] other = entries().get(1);
        other[208] ^= 1;
        refused(Cause.SIGNATURE, () -> client.feed(List.of(other)));
        refused(Cause.SIGNATURE, () -> client.evidence(other));
        same(new Bytes(before), new Bytes(client.state()));
    }

    private static Bytes joined(byte[] first, byte[] second) {
        return new Bytes(ByteBuffer.allocate(first.length + second.length).put(first).put(second).array());
    }

    /** Calls of several threads are made one after another. */
    private void threads() throws Exception {
        AtomicInteger running = new AtomicInteger(), most = new AtomicInteger();
        Client client = fed(settings().indices((name, proof) -> {
            most.accumulateAndGet(running.incrementAndGet(), Math::max);
            Thread.yield();
            running.decrementAndGet();
            return Optional.of(index());
        }));
        client.watch("alice", some(KEY));
        byte[] reply = read("reply"), history = read("history"), state = client.state();
        ExecutorService pool = Executors.newFixedThreadPool(8);
        List<Callable<Boolean>> tasks = new ArrayList<>();
        for (int task = 0; task < 400; task++) {
            int kind = task % 4;
            tasks.add(() -> switch (kind) {
                case 0 -> client.lookup("alice", reply).key().equals(Optional.of(new Bytes(KEY)));
                case 1 -> client.history("alice", history).size() == 2;
                case 2 -> client.state().length == state.length;
                default -> client.entries().size() == 2 && client.head().isPresent();
            });
        }
        int well = 0;
        for (Future<Boolean> it : pool.invokeAll(tasks)) well += it.get() ? 1 : 0;
        pool.shutdown();
        same(400, well);
        same(1, most.get());
    }

    /** No call of another thread is made between two entries that are fed at once. */
    private void oneFeed() throws Exception {
        List<byte[]> entries = entries();
        Client client = Client.create(settings());
        AtomicInteger seen = new AtomicInteger();
        Thread asking = new Thread(() -> seen.set(client.entries().size()));
        client.feed(new AbstractList<>() {
            @Override public byte[] get(int place) {
                if (place == 1) asking.start();
                if (place == 1) LockSupport.parkNanos(200_000_000);
                return entries.get(place);
            }

            @Override public int size() { return entries.size(); }
        });
        asking.join();
        same(2, seen.get());
    }

    private byte[] index() {
        try {
            return read("index");
        } catch (IOException error) {
            throw new java.io.UncheckedIOException(error);
        }
    }

    /** A client that nothing refers to but its own schemes is freed. */
    private void freeing() throws Exception {
        Field inC = Client.class.getDeclaredField("inC"), address = Class.forName("org.coniks.Native").getDeclaredField("client");
        inC.setAccessible(true);
        address.setAccessible(true);
        Object stored = inC.get(circular());
        long limit = System.nanoTime() + 20_000_000_000L;
        while (address.getLong(stored) != 0 && System.nanoTime() < limit) {
            System.gc();
            Thread.sleep(10);
        }
        same(0L, address.getLong(stored));
    }

    private Client circular() throws Exception {
        AtomicReference<Client> own = new AtomicReference<>();
        Client client = fed(settings().signatures((body, signature) -> own.get() == null).clock(() -> own.get() == null ? 1 : now.get()));
        own.set(client);
        return client;
    }

    /** Bytes of any length are refused, and nothing around them is read or written. */
    private void lengths() throws Exception {
        byte[] large = new byte[1 << 20];
        Client client = fed(settings());
        for (int length = 0; length < 700; length++) {
            byte[] bytes = Arrays.copyOf(large, length);
            throwing(Refusal.class, () -> client.lookup(bytes, bytes, OptionalLong.of(2)));
            throwing(Refusal.class, () -> client.history(bytes, bytes));
            throwing(Refusal.class, () -> Client.resume(settings(), bytes));
        }
        for (int turn = 0; turn < 500; turn++) throwing(Refusal.class, () -> client.feed(List.of(large)));
    }

    /** The state of a client that was fed a chain, of which no entry is signed. */
    private byte[] chain(Settings settings, int length) throws Exception {
        try (Client client = fed(settings)) {
            for (long epoch = 3; epoch <= length; epoch++) {
                ByteBuffer entry = ByteBuffer.wrap(entries().get(1)).putLong(1, epoch).putLong(9, epoch - 1);
                entry.put(49, client.head().orElseThrow().link().array());
                same(List.of(new Step(epoch, Watched.UNWATCHED)), client.feed(List.of(entry.array())));
            }
            return client.state();
        }
    }

    /** Clients that are closed leave no memory: those of a long chain, and very many. The heap of the JVM must not grow meanwhile. */
    private void memory() throws Exception {
        Settings accepting = settings().signatures((body, signature) -> true).indices((name, proof) -> Optional.empty());
        byte[] state = chain(accepting, 300);
        grown(200, () -> Client.resume(accepting, state));
        Settings digest = Settings.of(new byte[32], new byte[32]).signatures((body, signature) -> true).indices((name, proof) -> null);
        grown(250_000, () -> Client.create(digest));
    }

    /** Makes and closes clients, once to warm up, and then often enough that a leak of each is seen. */
    private void grown(int count, Callable<Client> make) throws Exception {
        long before = 0;
        for (int turn = 0; turn < count * 5 / 4; turn++) {
            if (turn == count / 4) before = resident();
            make.call().close();
        }
        long more = resident() - before;
        check(before > 0 && more < 5_000, "kB more: " + more);
    }

    /** How many kB of memory the process has. */
    private static long resident() throws IOException {
        return Files.readAllLines(Path.of("/proc/self/status")).stream().filter(it -> it.startsWith("VmRSS:"))
                .mapToLong(it -> Long.parseLong(it.replaceAll("\\D", ""))).sum();
    }

    /** What a scheme is given is freed before the call ends. */
    private void arguments() throws Exception {
        List<WeakReference<byte[]>> given = new ArrayList<>();
        Settings settings = settings().signatures((body, signature) -> {
            for (int turn = 0; turn < 100 && given.stream().anyMatch(it -> it.get() != null); turn++) System.gc();
            check(given.stream().allMatch(it -> it.get() == null), "an array of an earlier signature");
            given.addAll(List.of(new WeakReference<>(body), new WeakReference<>(signature)));
            return true;
        });
        Client.resume(settings, changed());
        same(4, given.size());
    }

    /** Settings that a caller must not pass, and those that change what is accepted. */
    private void settingsOfCallers() throws Exception {
        for (int length : new int[] {0, 31, 33}) {
            byte[] key = new byte[length];
            throwing(IllegalArgumentException.class, () -> settings().signingKey(key));
            throwing(IllegalArgumentException.class, () -> settings().vrfKey(Optional.of(key)));
            throwing(IllegalArgumentException.class, () -> Settings.of(key, new byte[32]));
            throwing(IllegalArgumentException.class, () -> new Head(1, new Bytes(key)));
            throwing(IllegalArgumentException.class, () -> new Trust(new Bytes(key), 1, 0));
        }
        throwing(IllegalArgumentException.class, () -> settings().maxAge(Duration.ofNanos(-1)));
        throwing(IllegalArgumentException.class, () -> settings().skew(Duration.ofNanos(-1)));
        Policy policy = Policy.read(read("policy"));
        byte[] signingKey = policy.signingKey().array(), vrfKey = policy.vrfKey().orElseThrow().array();
        refused(Cause.POLICY_KEYS, () -> Client.create(settings().signingKey(vrfKey)));
        refused(Cause.POLICY_KEYS, () -> Client.create(settings().vrfKey(Optional.empty())));
        refused(Cause.POLICY_KEYS, () -> Client.create(settings().vrfKey(Optional.of(signingKey))));
        refused(Cause.VRF_KEY, () -> Client.create(settings().vrfKey(Optional.of(new byte[32]))));
        now.set(START + 3 * PERIOD);
        same(2L, fed(settings()).lookup("alice", read("reply")).epoch());
        now.incrementAndGet();
        refused(Cause.STALE, () -> fed(settings()).lookup("alice", read("reply")));
        same(OptionalLong.of(2 * PERIOD + 1), fed(settings()).lookup("alice", read("reply"), 2).age());
        same(2L, fed(settings().maxAge(Duration.ofMillis(7201999))).lookup("alice", read("reply")).epoch());
        refused(Cause.STALE, () -> fed(settings().maxAge(Duration.ofMillis(7200999))).lookup("alice", read("reply")));
        now.set(START + PERIOD + (1L << 40));
        same(OptionalLong.of(1L << 40), fed(settings()).lookup("alice", read("reply"), 2).age());
        now.set(START + PERIOD - 300);
        same(OptionalLong.of(-300), fed(settings()).lookup("alice", read("reply")).age());
        refused(Cause.FUTURE, () -> fed(settings().skew(Duration.ofSeconds(299))).lookup("alice", read("reply")));
        Settings digest = Settings.of(read("digest"), signingKey);
        refused(Cause.VRF_PROOF, () -> fed(digest).lookup("alice", read("reply")));
        same(OptionalLong.empty(), fed(digest.vrfKey(Optional.of(vrfKey))).lookup("alice", read("reply")).age());
        refused(Cause.OTHER_POLICY, () -> fed(Settings.of(new byte[32], signingKey)));
        same(true, Client.create(Settings.of(policy)).head().isEmpty());
    }

    /** A policy has the values of its document. */
    private void policies() throws Exception {
        String document = new String(read("policy"), StandardCharsets.US_ASCII);
        Policy policy = new Policy(new Bytes(read("policy")));
        same("keys.example.com/directory", policy.origin());
        same("d75a980182b10ab7d54bfed3c964073a0ee172f3daa62325af021a68f707511a", policy.signingKey().toString());
        same("3d4017c3e843895a92b70aa74d1b7ebc9c982ccf2ec4968cc0cd55f12af4660c", policy.vrfKey().orElseThrow().toString());
        same(List.of(OptionalLong.of(START), OptionalLong.of(PERIOD)), List.of(policy.epochStart(), policy.epochPeriod()));
        same(List.of(OptionalLong.empty(), false), List.of(policy.proofsKept(), policy.isVouched()));
        Policy other = of(document.replace("1767225600", "18446744073709551615").replace("3600", "1").replace("proofs-kept forever",
                "records vouched\nproofs-kept 0").replaceAll("vrf ECVRF.*\nvrf-key .*", "vrf none"));
        same(List.of(OptionalLong.of(-1), OptionalLong.of(1)), List.of(other.epochStart(), other.epochPeriod()));
        same(List.of(OptionalLong.of(0), true, Optional.empty()), List.of(other.proofsKept(), other.isVouched(), other.vrfKey()));
        same(OptionalLong.empty(), of(document.replaceAll("epoch-.*\n", "")).epochStart());
        for (String wrong : List.of("", document + "\n", document.replace("3600", "0"), document.replace("3600", "01"), " " + document,
                document.replace("1767225600", "18446744073709551616"), document.replace("forever", "99999999999999999999"),
                document.replace("keys.example.com", "a b"), document.replace("\n", "\r\n"), document.replace("d75a", "D75A"))) {
            throwing(IllegalArgumentException.class, () -> of(wrong));
        }
    }

    private static Policy of(String document) { return Policy.read(document.getBytes(StandardCharsets.ISO_8859_1)); }

    /** Calls that must not be made, with the texts of the client in C. */
    private void misuse() throws Exception {
        Client client = fed(settings());
        Head head = client.head().orElseThrow();
        hasMessage("no name is watched: watch one first", throwing(IllegalStateException.class, client::report));
        hasMessage("no name is watched: watch one first", throwing(IllegalStateException.class, () -> client.expect(some(NEW_KEY), 3)));
        hasMessage("a name has 1 to 255 bytes", throwing(IllegalArgumentException.class, () -> client.watch("", some(KEY))));
        hasMessage("a name has 1 to 255 bytes", throwing(IllegalArgumentException.class, () -> client.watch("a".repeat(256), some(KEY))));
        throwing(IllegalArgumentException.class, () -> client.watch("alice", some()));
        throwing(IllegalArgumentException.class, () -> client.watch("\ud800", some(KEY)));
        throwing(IllegalArgumentException.class, () -> client.lookup("\udc00a", read("reply")));
        client.watch(ALICE, some(KEY), OptionalLong.of(2));
        client.watch(ALICE, some(KEY), OptionalLong.of(2));
        throwing(IllegalStateException.class, () -> client.watch("bob", some(KEY)));
        throwing(IllegalStateException.class, () -> client.watch("alice", some(OTHER_KEY)));
        throwing(IllegalStateException.class, () -> client.watch("alice", Optional.empty()));
        throwing(IllegalStateException.class, () -> client.watch(ALICE, some(KEY), OptionalLong.of(1)));
        hasMessage("the new key is the one that is expected already",
                throwing(IllegalArgumentException.class, () -> client.expect(some(KEY), 3)));
        throwing(IllegalArgumentException.class, () -> client.expect(some(NEW_KEY), 2));
        throwing(IllegalArgumentException.class, () -> client.expect(some(), 3));
        client.expect(Optional.empty(), -1);
        throwing(IllegalStateException.class, () -> client.expect(some(NEW_KEY), 4));
        for (int least : new int[] {0, -1, Integer.MIN_VALUE}) {
            hasMessage("at least one auditor vouches for an entry", throwing(IllegalArgumentException.class,
                    () -> Client.vouched(settings(), entries().get(1), Map.of("one", head), least)));
        }
        Map<String, Head> heads = new TreeMap<>();
        for (int auditor = 0; auditor < 64; auditor++) heads.put("auditor " + auditor, head);
        same(head, Client.vouched(settings(), entries().get(1), heads, 64).head().orElseThrow());
        refused(Cause.NOT_VOUCHED, () -> Client.vouched(settings(), entries().get(1), heads, 65));
        heads.put("another", head);
        throwing(IllegalArgumentException.class, () -> Client.vouched(settings(), entries().get(1), heads, 1));
        refused(Cause.NOT_VOUCHED, () -> Client.vouched(settings(), entries().get(1), Map.of(), 1));
        refused(Cause.AUDITORS_DIFFER,
                () -> Client.vouched(settings(), entries().get(1), Map.of("one", new Head(2, new Bytes(new byte[32]))), 1));
    }

    private void hasMessage(String wanted, Throwable error) { same(wanted, error == null ? null : error.getMessage()); }

    /** A refusal has its text, its number and its evidence. */
    private void refusals() throws Exception {
        Client client = fed(settings());
        Refusal refusal = throwing(Refusal.class, () -> client.lookup("alice", new byte[0]));
        same(List.of(Cause.NO_REPLY, OptionalInt.empty(), Optional.empty()),
                List.of(refusal.cause(), refusal.status(), refusal.evidence()));
        same("the reply has no byte: ask for the reply again", refusal.getMessage());
        refusal = throwing(Refusal.class, () -> client.feed(List.of(new byte[208])));
        same(List.of(Cause.ENTRY_LENGTH, OptionalInt.of(48)), List.of(refusal.cause(), refusal.status()));
        Settings accepting = settings().signatures((body, signature) -> true);
        Client trusting = fed(accepting);
        byte[] other = entries().get(1);
        other[20] ^= 1;
        refusal = throwing(Refusal.class, () -> trusting.feed(List.of(other)));
        Evidence evidence = refusal.evidence().orElseThrow();
        same(List.of(Cause.EQUIVOCATION, OptionalInt.of(36)), List.of(refusal.cause(), refusal.status()));
        same(new Evidence(Evidence.Kind.OVERLAP, new Bytes(entries().get(1)), new Bytes(other)), evidence);
        same(Optional.of(evidence), trusting.evidence(other));
        same(Optional.empty(), trusting.evidence(entries().get(1)));
        same(2, trusting.entries().size());
        throwing(Refusal.class, () -> trusting.feed(List.of(entries().get(1), other)));
        refused(Cause.CATCH_UP_LENGTH, () -> client.feedCatchUp(new byte[210]));
        refused(Cause.UNKNOWN_EPOCH, () -> client.lookup("alice", read("reply"), -1));
    }

    public static void main(String[] arguments) throws Exception {
        Calls it = new Calls(Path.of(arguments[0]));
        for (Act act : List.<Act>of(it::examples, it::auditors, it::closing, it::nothing, it::copies, it::throwingSchemes,
                it::throwingClocks, it::reentry, it::schemes, it::threads, it::oneFeed, it::freeing, it::lengths, it::arguments, it::memory,
                it::settingsOfCallers, it::policies, it::misuse, it::refusals)) {
            it.now.set(START + PERIOD + 60);
            act.run();
        }
        System.out.println(it.passed + " checks passed, " + it.failed + " failed");
        System.exit(it.failed == 0 ? 0 : 1);
    }
}
