package jsonpath.jp;

import java.util.concurrent.LinkedBlockingDeque;
import java.util.function.Function;

/** A query in as many handles as calls ask it at once, of which those that no call uses are kept here. */
final class SpareHandles {
    /** How many are kept that no call uses. */
    private static final int MOST = 16;
    /** What took more bytes than these is not kept. */
    private static final int LARGEST_KEPT = 1 << 20;

    private final byte[] query;
    private final int profile;
    private final LinkedBlockingDeque<Handle> spare = new LinkedBlockingDeque<>(MOST);
    private volatile boolean isClosed;

    /** Reads the query, or throws why it is refused. */
    SpareHandles(String text, int profile) {
        this.query = Texts.encoded(text);
        this.profile = profile;
        Handle first = new Handle();
        Outcome outcome = Runs.reading(query.length, () -> first.keepQuery(query, profile));
        settle(first, outcome.status() == Codes.DONE);
        outcome.textOrThrow(text, Limits.NONE);
    }

    /** What a call gives with a handle of its own, over a document of so many bytes. */
    Outcome lent(int size, Function<Handle, Outcome> call) {
        requireOpen();
        Handle spared = spare.pollFirst();
        Handle handle = spared == null ? new Handle() : spared;
        Outcome outcome = null;
        try {
            Outcome kept = spared == null ? handle.keepQuery(query, profile) : null;
            outcome = kept == null || kept.status() == Codes.DONE ? call.apply(handle) : kept;
            return outcome;
        } finally {
            settle(handle, size <= LARGEST_KEPT && outcome != null && outcome.text().length <= LARGEST_KEPT);
        }
    }

    void requireOpen() {
        if (isClosed) {
            throw new IllegalStateException("the query is closed");
        }
    }

    /** Keeps a handle that no call uses any more, or frees it. */
    private void settle(Handle handle, boolean isKept) {
        if (!isKept || !spare.offerFirst(handle)) {
            handle.free();
        }
        if (isClosed) {
            freeSpare();
        }
    }

    private void freeSpare() {
        for (Handle handle = spare.pollFirst(); handle != null; handle = spare.pollFirst()) {
            handle.free();
        }
    }

    /** Frees what no call uses; the others follow when they are given back. */
    void close() {
        isClosed = true;
        freeSpare();
    }
}
