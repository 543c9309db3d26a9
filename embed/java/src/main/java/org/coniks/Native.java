package org.coniks;

import java.io.*;
import java.nio.*;
import java.nio.charset.StandardCharsets;
import java.nio.file.*;
import java.util.OptionalLong;
import java.util.function.LongSupplier;
import java.util.stream.*;

/**
 * A client in C, which has one call at a time. A call is given numbers, and memory with copies of arrays. It writes structs of
 * embed/c/client.h after them, and then why it refuses something. The bounds of the memory are checked here.
 */
final class Native implements Runnable {
    /** In the order of coniks_java.c. */
    enum Call {
        MAKE, DISPOSE, TEXT, CATCH_UP, FEED, LOOKUP, HISTORY, LATEST, COUNT, ENTRY, COMPARE, COVER, MARK, CONFIRMED,
        RELIED, DROP, WATCH, EXPECT, MISSING, LOST, ALARMS, NOTE, REPORT, EVIDENCE, STATE
    }

    /** Returns 32 bytes if a scheme accepts, which are the index if it has one; else null. */
    interface Verdicts { byte[] ask(boolean isIndex, byte[] first, byte[] second); }

    /** What a call returned, its memory from what it wrote on, and where that has why the call was refused. */
    record Result(long value, ByteBuffer out, int why) {}

    /** Sizes of structs, and the most bytes of a text. */
    static final int STEP = 16, FOUND = 56, HEAD = 40, ALARM = 16, REPORT = 24, COVERED = 40, EVIDENCE = 424, REFUSAL = 428, TEXT = 161;

    static { load(System.mapLibraryName("coniks_java")); }

    private long client;
    private boolean isBusy;

    /** The place of the last epoch in the client before this one, if there was one. */
    private final int place;

    Native(long ended, LongSupplier clock, Verdicts verdicts, Object... given) throws Refusal {
        Object[] all = Stream.concat(Stream.of(given), Stream.of(ended)).toArray();
        ByteBuffer made = checked(call(Call.MAKE, time(clock), verdicts, 2 * Long.BYTES, all));
        client = made.getLong();
        place = (int) made.getLong();
    }

    /** Makes a client that goes on after this one. */
    synchronized Native next(LongSupplier clock, Verdicts verdicts, Object... given) throws Refusal {
        begin();
        try {
            return new Native(client, clock, verdicts, given);
        } finally {
            isBusy = false;
        }
    }

    int place() { return place; }

    /** Loads the library that is beside the classes, for this processor, or else one on java.library.path. */
    private static void load(String name) {
        try (InputStream library = Native.class.getResourceAsStream(System.getProperty("os.arch") + "/" + name)) {
            if (library == null) {
                System.loadLibrary("coniks_java");
                return;
            }
            Path file = Files.write(Files.createTempFile("coniks", name), library.readAllBytes());
            System.load(file.toString());
            Files.delete(file);
        } catch (IOException error) {
            throw new UncheckedIOException(error);
        }
    }

    private static native long call(int what, long client, byte[] memory, long[] numbers, Verdicts verdicts);

    private Result call(Call what, long now, Verdicts verdicts, int room, Object... given) {
        long size = 512L + room + Stream.of(given).mapToLong(it -> it instanceof byte[] bytes ? bytes.length + 8L : 8).sum();
        ByteBuffer memory = ByteBuffer.allocate(Math.toIntExact(size)).order(ByteOrder.nativeOrder()).position(Long.BYTES);
        LongStream.Builder numbers = LongStream.builder().add(now);
        for (Object it : given) put(memory, it, numbers);
        int out = place(memory, new byte[room]), why = place(memory, new byte[REFUSAL]);
        long value = call(what.ordinal(), client, memory.array(), numbers.add(out).add(why).build().toArray(), verdicts);
        return new Result(value, memory.position(out), why);
    }

    /** Puts bytes at a place that eight divides, and returns it. */
    private static int place(ByteBuffer memory, byte[] bytes) {
        int place = memory.position();
        memory.put(bytes).position(place + (bytes.length + 7 & -8));
        return place;
    }

    /** Puts bytes, of which there are the place and the number, a number, the place of one, or no bytes. */
    private static void put(ByteBuffer memory, Object given, LongStream.Builder numbers) {
        if (given instanceof byte[] bytes) numbers.add(place(memory, bytes)).add(bytes.length);
        else if (given instanceof Number number) numbers.add(number.longValue());
        else if (given instanceof OptionalLong number) numbers.add(number.isPresent() ? memory.position() : 0);
        else numbers.add(0).add(0);
        if (given instanceof OptionalLong number) number.ifPresent(memory::putLong);
    }

    /** Returns what a call wrote. Throws why it was refused if it was. */
    synchronized ByteBuffer checked(Result result) throws Refusal {
        if (result.value == 0) return result.out;
        Result text = call(Call.TEXT, 0, null, TEXT, result.value);
        String message = StandardCharsets.US_ASCII.decode(text.out.limit(text.out.position() + (int) text.value)).toString();
        throw Refusal.of((int) result.value, message, result.out.position(result.why));
    }

    private static long time(LongSupplier clock) { return Math.max(0, clock.getAsLong()); }

    /** Throws an exception within a call. */
    void checkIdle() { if (isBusy) throw new IllegalStateException("a scheme or a clock must not call its client"); }

    private void begin() {
        checkIdle();
        if (client == 0) throw new IllegalStateException("the client is closed");
        isBusy = true;
    }

    synchronized Result call(Call what, LongSupplier clock, Verdicts verdicts, int room, Object... given) {
        begin();
        try {
            return call(what, time(clock), verdicts, room, given);
        } finally {
            isBusy = false;
        }
    }

    @Override public synchronized void run() {
        call(Call.DISPOSE, 0, null, 0);
        client = 0;
    }
}
