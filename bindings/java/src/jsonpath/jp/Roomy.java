package jsonpath.jp;

import java.util.concurrent.ExecutionException;
import java.util.concurrent.FutureTask;
import java.util.concurrent.SynchronousQueue;
import java.util.concurrent.ThreadPoolExecutor;
import java.util.concurrent.TimeUnit;
import java.util.function.Supplier;

/** Threads on which each call of the engine has room, and for which their callers wait until they are interrupted. */
final class Roomy {
    /** The stack of such a thread. */
    private static final long STACK = 2 << 20;
    /** How long one waits for more work before it ends. */
    private static final long SECONDS_IDLE = 10;

    private static final ThreadPoolExecutor WORKERS = new ThreadPoolExecutor(
            0, Integer.MAX_VALUE, SECONDS_IDLE, TimeUnit.SECONDS, new SynchronousQueue<>(), Worker::new);

    private Roomy() {}

    private static final class Worker extends Thread {
        private volatile Task<?> task;

        Worker(Runnable work) {
            super(null, work, "jsonpath.jp", STACK, false);
            setDaemon(true);
        }
    }

    private static final class Task<T> extends FutureTask<T> {
        private volatile boolean isLeft;

        Task(Supplier<T> work) {
            super(work::get);
        }

        @Override
        public void run() {
            Worker worker = (Worker) Thread.currentThread();
            worker.task = this;
            try {
                super.run();
            } finally {
                worker.task = null;
            }
        }
    }

    /** What comes of the work, which is done on this thread where it has room. */
    static <T> T here(Supplier<T> work) {
        return isWorker() || Engine.hasRoom() ? work.get() : waitedFor(work);
    }

    /**
     * What comes of the work, which another thread does. Where none can be started this one does it, if it has room.
     * An interrupt of this thread leaves the other alone with it.
     */
    static <T> T waitedFor(Supplier<T> work) {
        if (isWorker()) {
            return work.get();
        }
        Task<T> task = new Task<>(work);
        try {
            WORKERS.execute(task);
        } catch (OutOfMemoryError fault) {
            if (!Engine.hasRoom()) {
                throw fault;
            }
            return work.get();
        }
        try {
            return task.get();
        } catch (InterruptedException fault) {
            task.isLeft = true;
            throw interrupted();
        } catch (ExecutionException fault) {
            throw thrown(fault.getCause());
        }
    }

    /** The exception of an interrupt, after which this thread is interrupted still. */
    static InterruptedQueryException interrupted() {
        Thread.currentThread().interrupt();
        return new InterruptedQueryException();
    }

    /** Has another thread do the work, for which nobody waits. */
    static void later(Runnable work) {
        WORKERS.execute(work);
    }

    /** Whether nobody waits any longer for what a thread does. */
    static boolean isLeft(Thread thread) {
        Task<?> task = thread instanceof Worker worker ? worker.task : null;
        return task != null && task.isLeft;
    }

    private static boolean isWorker() {
        return Thread.currentThread() instanceof Worker;
    }

    /** What the other thread threw, with the place where this one waited for it. */
    private static RuntimeException thrown(Throwable fault) {
        fault.fillInStackTrace();
        if (fault instanceof Error error) {
            throw error;
        }
        return (RuntimeException) fault;
    }
}
