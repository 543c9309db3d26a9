package org.coniks.tests;

import java.io.*;
import java.nio.charset.StandardCharsets;
import java.time.Duration;
import java.util.*;
import java.util.stream.*;
import org.coniks.*;

/** Replies to the requests of embed/tests/client_sides.py, one on each line. */
public final class Answers {
    private long now;
    private Client client;
    private Trust trust;

    private static byte[] bytes(String word) { return HexFormat.of().parseHex(word.equals(".") ? "" : word); }

    private static <T> Optional<T> given(String word, java.util.function.Function<String, T> read) {
        return word.equals("-") ? Optional.empty() : Optional.of(read.apply(word));
    }

    private static OptionalLong number(String word) {
        return word.equals("-") ? OptionalLong.empty() : OptionalLong.of(Long.parseUnsignedLong(word));
    }

    private static Head head(String epoch, String link) { return new Head(Long.parseUnsignedLong(epoch), new Bytes(bytes(link))); }

    private static String word(Bytes bytes) { return bytes.array().length == 0 ? "." : bytes.toString(); }

    private static String word(Enum<?> it) { return it.name().toLowerCase(Locale.ROOT).replace('_', '-'); }

    private static String seen(Watched seen) { return seen == Watched.UNWATCHED ? "-" : word(seen); }

    private static String evidence(Optional<Evidence> found) {
        return found.map(it -> word(it.kind()) + " " + word(it.mine()) + " " + word(it.other())).orElse("-");
    }

    private static String found(Found it) {
        return Stream.of(Long.toUnsignedString(it.epoch()), it.key().map(Answers::word).orElse("-"), seen(it.seen()),
                it.age().isPresent() ? Long.toString(it.age().getAsLong()) : "-", Long.toUnsignedString(it.firstSeen()))
                .collect(Collectors.joining(" "));
    }

    private static String listed(String first, Stream<String> rest) {
        return Stream.concat(Stream.of(first), rest).collect(Collectors.joining(" "));
    }

    private static String fed(List<Step> steps) {
        return listed("fed", steps.stream().map(it -> Long.toUnsignedString(it.epoch()) + ":" + seen(it.seen())));
    }

    /** The name of a cause in docs/FORMATS.md. */
    private static String name(Cause cause) {
        Stream<String> words = Stream.of(cause.name().split("_"));
        return words.map(it -> it.charAt(0) + it.substring(1).toLowerCase(Locale.ROOT)).collect(Collectors.joining());
    }

    private static String refused(Refusal it) {
        String status = it.status().isPresent() ? Integer.toString(it.status().getAsInt()) : "-";
        return "refused " + name(it.cause()) + " " + status + " " + evidence(it.evidence());
    }

    private Settings settings(String[] words) {
        now = Long.parseUnsignedLong(words[1]);
        client = null;
        return published(words, 2);
    }

    /** The settings of words from a place on: limits, keys and policy. The trust document is taken. */
    private Settings published(String[] words, int place) {
        Trust named = trust;
        trust = null;
        Settings settings = Settings.of(Policy.read(bytes(words[place + 4]))).signingKey(bytes(words[place + 2])).clock(() -> now);
        settings.vrfKey(given(words[place + 3], Answers::bytes));
        number(words[place]).ifPresent(it -> settings.maxAge(Duration.ofSeconds(it)));
        number(words[place + 1]).ifPresent(it -> settings.skew(Duration.ofSeconds(it)));
        if (named != null) settings.trust(named);
        return settings;
    }

    /** Goes on in another directory, in which the later requests are answered. */
    private String succeed(String[] words) throws Refusal {
        Settings settings = published(words, 1);
        Succeeded succeeded = client.succeed(Succession.read(bytes(words[6])), settings, bytes(words[7]));
        client.close();
        client = succeeded.client();
        return listed("void", succeeded.voided().stream().map(it -> Long.toUnsignedString(epoch(it))));
    }

    private String begin(String[] words) throws Refusal {
        Settings settings = settings(words);
        Optional<byte[]> state = given(words[7], Answers::bytes);
        client = state.isPresent() ? Client.resume(settings, state.get()) : Client.create(settings);
        return "begun";
    }

    private String vouched(String[] words) throws Refusal {
        Settings settings = settings(words);
        Map<String, Head> heads = new HashMap<>();
        for (String word : List.of(words).subList(9, words.length)) {
            String[] parts = word.split(":");
            heads.put("auditor " + heads.size(), head(parts[0], parts[1]));
        }
        client = Client.vouched(settings, bytes(words[7]), heads, Integer.parseInt(words[8]));
        return "begun";
    }

    private String lookup(String[] words) throws Refusal {
        return "found " + found(client.lookup(bytes(words[1]), bytes(words[2]), number(words[3])));
    }

    private String watch(String[] words) {
        client.watch(bytes(words[1]), given(words[2], Answers::bytes), number(words[3]));
        return "watching";
    }

    private String expect(String[] words) {
        client.expect(given(words[1], Answers::bytes), Long.parseUnsignedLong(words[2]));
        return "expected";
    }

    /** The epochs of the first entries, as many as are dropped. */
    private String drop() {
        List<Bytes> entries = client.entries();
        Dropped dropped = client.drop();
        List<String> epochs = entries.stream().limit(dropped.epochs()).map(it -> Long.toUnsignedString(epoch(it))).toList();
        if (dropped.epochs() > 0 && (dropped.first() != epoch(entries.get(0)) || dropped.last() != epoch(entries.get(epochs.size() - 1)))) {
            throw new AssertionError(dropped.toString());
        }
        return listed("dropped", epochs.stream());
    }

    private static long epoch(Bytes entry) { return java.nio.ByteBuffer.wrap(entry.array()).getLong(1); }

    private String alarms() {
        return listed("alarms", client.alarms().stream().map(it -> Long.toUnsignedString(it.epoch()) + ":" + seen(it.seen())));
    }

    private String note(String[] words) {
        client.note(Long.parseUnsignedLong(words[1]));
        return alarms();
    }

    private String report() {
        Report it = client.report();
        return "report " + word(it.verdict()) + " " + Long.toUnsignedString(it.first()) + " " + Long.toUnsignedString(it.last());
    }

    private String set(String[] words) {
        if (words[0].equals("now")) now = Long.parseUnsignedLong(words[1]);
        else trust = new Trust(new Bytes(bytes(words[1])), Integer.parseInt(words[2]), Integer.parseInt(words[3]));
        return "set";
    }

    private static String epochs(String first, List<Long> epochs) { return listed(first, epochs.stream().map(Long::toUnsignedString)); }

    private String answer(String[] words) throws Refusal {
        return switch (words[0]) {
            case "begin" -> begin(words);
            case "vouched" -> vouched(words);
            case "succeed" -> succeed(words);
            case "now", "trust" -> set(words);
            case "feed" -> fed(client.feed(Stream.of(words).skip(1).map(Answers::bytes).toList()));
            case "catchup" -> fed(client.feedCatchUp(bytes(words[1])));
            case "lookup" -> lookup(words);
            case "history" -> listed("found", client.history(bytes(words[1]), bytes(words[2])).stream().map(Answers::found));
            case "watch" -> watch(words);
            case "expect" -> expect(words);
            case "missing" -> epochs("missing", client.missing());
            case "lost" -> epochs("lost", client.lost());
            case "head" -> "head " + client.head().map(it -> Long.toUnsignedString(it.epoch()) + " " + word(it.link())).orElse("-");
            case "compare" -> word(client.compare(head(words[1], words[2])));
            case "cover" -> word(client.cover(head(words[1], words[2])));
            case "evidence" -> "evidence " + evidence(client.evidence(bytes(words[1])));
            case "state" -> "state " + HexFormat.of().formatHex(client.state());
            case "mark" -> word(client.mark(Integer.parseInt(words[1]), head(words[2], words[3])));
            case "confirmed" -> {
                OptionalLong epoch = client.confirmed();
                yield "confirmed " + (epoch.isPresent() ? Long.toUnsignedString(epoch.getAsLong()) : "-");
            }
            case "drop" -> drop();
            case "alarms" -> alarms();
            case "note" -> note(words);
            case "report" -> report();
            default -> throw new AssertionError(words[0]);
        };
    }

    /** Starts the program. */
    public static void main(String[] arguments) throws IOException {
        Answers it = new Answers();
        BufferedReader lines = new BufferedReader(new InputStreamReader(System.in, StandardCharsets.US_ASCII));
        for (String line; (line = lines.readLine()) != null;) {
            String printed;
            try {
                printed = it.answer(line.split(" "));
            } catch (Refusal refusal) {
                printed = refused(refusal);
            } catch (IllegalArgumentException | IllegalStateException misuse) {
                printed = "misuse";
            }
            System.out.println(printed);
        }
    }
}
