package jsonpath.jp;

import java.util.function.Supplier;

/**
 * The runs of a call. A call of the engine sees no interrupt. So the first run ends after so many steps, and so many
 * bytes of an answer, that whoever interrupts its thread does not wait for it. Where these do not suffice the call is
 * run again on a thread of its own, with ever more, and its caller waits for that thread.
 */
final class Runs {
    /** The steps of a run on the caller's thread, which take milliseconds and never a third of a second. */
    static final long FIRST_STEPS = 1 << 18;
    /** The bytes of its answer. */
    private static final long FIRST_BYTES = 1 << 24;
    /** What has more bytes is read on a thread of its own. */
    private static final int LARGEST_AT_ONCE = 1 << 18;
    /** How many times the steps of a run the next one makes. */
    private static final long GROWTH = 4;
    /** The steps of the first run over a text that is read on a thread of its own, for each of its bytes. */
    private static final long STEPS_A_BYTE = 2;

    private Runs() {}

    /** A call, which is made within limits. */
    interface Call {
        Outcome within(Limits run);
    }

    /** The outcome of a call that reads so many bytes. */
    static Outcome of(Limits limits, long size, Call call) {
        if (size > LARGEST_AT_ONCE) {
            return Roomy.waitedFor(() -> longer(limits, STEPS_A_BYTE * size, call));
        }
        Limits first = new Limits(less(FIRST_STEPS, limits.steps()), limits.nodes(), less(FIRST_BYTES, limits.bytes()));
        Outcome outcome = Roomy.here(() -> call.within(first));
        return isShort(outcome, first, limits) ? goneOn(limits, FIRST_STEPS, call) : outcome;
    }

    /** The outcome of a call after a run of so many steps. */
    static Outcome goneOn(Limits limits, long made, Call call) {
        return Roomy.waitedFor(() -> longer(limits, GROWTH * made, call));
    }

    /** What comes of work that reads so many bytes. */
    static <T> T reading(long size, Supplier<T> work) {
        return size > LARGEST_AT_ONCE ? Roomy.waitedFor(work) : Roomy.here(work);
    }

    /** Whether a run ended for its own limits, and not for those of the caller. */
    static boolean isShort(Outcome outcome, Limits run, Limits limits) {
        return switch (outcome.status()) {
            case Codes.STEPS_USED_UP -> run.steps() != limits.steps();
            case Codes.TOO_MANY_BYTES -> run.bytes() != limits.bytes();
            default -> false;
        };
    }

    /** The smaller of a number and a limit, of which 0 is none. */
    static long less(long number, long limit) {
        return limit == 0 ? number : Math.min(number, limit);
    }

    /** The outcome in runs of ever more steps; it ends with the run that is made when nobody waits any longer. */
    private static Outcome longer(Limits limits, long steps, Call call) {
        Limits run = limits.withSteps(less(steps, limits.steps()));
        Outcome outcome = call.within(run);
        while (isShort(outcome, run, limits) && !Roomy.isLeft(Thread.currentThread())) {
            long more = GROWTH * Math.min(run.steps(), Long.MAX_VALUE / GROWTH);
            run = run.withSteps(less(more, limits.steps()));
            outcome = call.within(run);
        }
        return outcome;
    }
}
