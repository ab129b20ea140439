package jsonpath.jp;

import java.util.concurrent.TimeUnit;
import java.util.concurrent.locks.ReentrantLock;
import java.util.function.Function;

/** A document in a handle, and the lock that a call holds while it uses it. */
final class Reading {
    /** How long a call waits for its turn before it looks whether that will come. */
    private static final long MILLISECONDS = 50;

    private final Handle handle = new Handle();
    private final ReentrantLock lock = new ReentrantLock();
    private volatile boolean isDropped;
    /** The thread whose turn it is. */
    private volatile Thread user;

    /** Reads the text, or throws why it is no document. */
    Reading(byte[] text, int profile) {
        Outcome outcome = Runs.reading(text.length, () -> handle.keepDocument(text, profile));
        if (outcome.status() != Codes.DONE) {
            handle.free();
        }
        outcome.textOrThrow("", Limits.NONE);
    }

    /** What a call gives with the handle, or null where that was dropped, or the call left, before its turn came. */
    Outcome lent(Function<Handle, Outcome> call) {
        try {
            while (!lock.tryLock(MILLISECONDS, TimeUnit.MILLISECONDS)) {
                if (isDropped) {
                    return null;
                }
            }
        } catch (InterruptedException fault) {
            throw Roomy.interrupted();
        }
        try {
            // Whoever leaves this thread alone looks at the user behind that.
            user = Thread.currentThread();
            return isDropped || Roomy.isLeft(user) ? null : call.apply(handle);
        } finally {
            user = null;
            lock.unlock();
            freeIfDropped();
        }
    }

    /** Whether it is in use by a call that nobody waits for. */
    boolean isLeft() {
        return Roomy.isLeft(user);
    }

    /** Frees the handle when no call uses it any more. */
    void drop() {
        isDropped = true;
        freeIfDropped();
    }

    /** Whoever unlocks looks whether it was dropped meanwhile, and whoever drops it whether it is locked. */
    private void freeIfDropped() {
        if (isDropped && lock.tryLock()) {
            try {
                handle.free();
            } finally {
                lock.unlock();
            }
        }
    }
}
