package org.coniks;

import java.nio.ByteBuffer;
import java.util.Optional;
import java.util.OptionalInt;

/** What a client does not accept, and why. Nothing of it is kept. */
public final class Refusal extends Exception {
    private static final long serialVersionUID = 1;

    /** The statuses of client.h: those of clients are from 64 on, and from 128 on those of a call that its caller must not make. */
    private static final int OF_CLIENTS = 64, MISUSE = 128, OTHER_WATCH = 132, CHANGE_OPEN = 134, NO_MEMORY = 145;

    /** Why it is refused. */
    private final Cause cause;

    /** The number in coniks.h, 0 if there is none. */
    private final int status;

    /** What convicts, or null. It is not serialized. */
    private final transient Evidence evidence;

    private Refusal(int status, String text, ByteBuffer why) {
        super(text);
        int ownStatus = why.getInt();
        cause = Cause.of(status);
        this.status = status < OF_CLIENTS ? status : ownStatus;
        evidence = Evidence.of(why).orElse(null);
    }

    /** Returns why a call has a status, from a coniks_client_refusal. Throws what the directory is not the reason of. */
    static Refusal of(int status, String text, ByteBuffer why) {
        if (status == NO_MEMORY) throw new OutOfMemoryError(text);
        if (status >= OTHER_WATCH && status <= CHANGE_OPEN) throw new IllegalStateException(text);
        if (status >= MISUSE) throw new IllegalArgumentException(text);
        return new Refusal(status, text, why);
    }

    /** {@return why it is refused} */
    public Cause cause() { return cause; }

    /** {@return the number in coniks.h if there is one: that of the cause, or why an entry that convicts does not follow} */
    public OptionalInt status() { return status == 0 ? OptionalInt.empty() : OptionalInt.of(status); }

    /** {@return what convicts the provider, if something does: publish it} */
    public Optional<Evidence> evidence() { return Optional.ofNullable(evidence); }
}
