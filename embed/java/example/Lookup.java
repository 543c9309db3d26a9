import java.io.IOException;
import java.nio.file.Files;
import java.nio.file.Path;
import java.util.HexFormat;
import java.util.Optional;
import org.coniks.Bytes;
import org.coniks.Client;
import org.coniks.Found;
import org.coniks.Policy;
import org.coniks.Refusal;
import org.coniks.Settings;

/**
 * Looks a name up, from what a directory's service sent. Prints the key in hexadecimal digits, or absent, or why something is refused.
 *
 * <pre>Lookup SIGNING_KEY VRF_KEY POLICY CATCH_UP NAME REPLY [EPOCH]</pre>
 *
 * <p>The keys are 64 hexadecimal digits, {@code -} for a directory without a VRF. POLICY, CATCH_UP and REPLY are files: the policy
 * document, all entries of the chain, and the reply for NAME at EPOCH, by default the latest.
 */
final class Lookup {
    private static byte[] read(String file) throws IOException { return Files.readAllBytes(Path.of(file)); }

    private static byte[] key(String digits) { return HexFormat.of().parseHex(digits); }

    private static Found found(String[] words) throws IOException, Refusal {
        Settings settings = Settings.of(Policy.read(read(words[2]))).signingKey(key(words[0]));
        settings.vrfKey(words[1].equals("-") ? Optional.empty() : Optional.of(key(words[1])));
        try (Client client = Client.create(settings)) {
            client.feedCatchUp(read(words[3]));
            if (words.length == 6) return client.lookup(words[4], read(words[5]));
            return client.lookup(words[4], read(words[5]), Long.parseUnsignedLong(words[6]));
        }
    }

    public static void main(String[] words) throws IOException {
        if (words.length < 6 || words.length > 7) {
            System.err.println("Lookup SIGNING_KEY VRF_KEY POLICY CATCH_UP NAME REPLY [EPOCH]");
            System.exit(2);
        }
        try {
            System.out.println(found(words).key().map(Bytes::toString).orElse("absent"));
        } catch (Refusal | IllegalArgumentException error) {
            System.err.println(error.getMessage());
            System.exit(1);
        }
    }
}
