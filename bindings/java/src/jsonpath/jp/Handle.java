package jsonpath.jp;

import java.lang.ref.Cleaner;
import java.lang.ref.Reference;

/** What the engine keeps from call to call: a query or a document. One call at a time uses it, and none after free. */
final class Handle {
    private static final Cleaner CLEANER = Cleaner.create();

    private final long address;
    private final Cleaner.Cleanable memory;

    /** A handle whose memory is given back by free, or else when nothing refers to it. */
    Handle() {
        address = Engine.newHandle();
        if (address == 0) {
            throw Outcome.noMemory();
        }
        memory = CLEANER.register(this, new Memory(address));
    }

    private record Memory(long address) implements Runnable {
        @Override
        public void run() {
            if (!Engine.free(address)) {
                Roomy.later(this);
            }
        }
    }

    /** Gives the memory back, once. */
    void free() {
        memory.clean();
    }

    Outcome keepQuery(byte[] query, int profile) {
        long[] told = new long[Engine.TOLD];
        try {
            Engine.keepQuery(address, query, profile, told);
        } finally {
            Reference.reachabilityFence(this);
        }
        return Outcome.ofQuery(told, query, profile);
    }

    Outcome keepDocument(byte[] document, int profile) {
        long[] told = new long[Engine.TOLD];
        try {
            return Outcome.ofDocument(told, Engine.keepDocument(address, document, profile, told), document, profile);
        } finally {
            Reference.reachabilityFence(this);
        }
    }

    /** The lines that the query of this profile, which this handle keeps, gives of a text. */
    Outcome ask(byte[] document, int profile, Wanted wanted, Limits run) {
        long[] told = new long[Engine.TOLD];
        try {
            byte[] lines = Engine.ask(
                    address, document, wanted.form(), wanted.count(), run.steps(), run.nodes(), run.bytes(), told);
            return Outcome.ofDocument(told, lines, document, profile);
        } finally {
            Reference.reachabilityFence(this);
        }
    }

    /** The lines that it gives of the document that the other handle keeps. */
    Outcome askDocument(Handle document, Wanted wanted, Limits run) {
        long[] told = new long[Engine.TOLD];
        try {
            long other = document.address;
            byte[] lines = Engine.askDocument(
                    address, other, wanted.form(), wanted.count(), run.steps(), run.nodes(), run.bytes(), told);
            return Outcome.of(told, lines);
        } finally {
            Reference.reachabilityFence(this);
            Reference.reachabilityFence(document);
        }
    }

    /** The lines of the next page of the document that the other handle keeps. */
    Outcome nextPage(long[] cursor, Handle document, Limits run) {
        long[] told = new long[Engine.TOLD];
        try {
            return Outcome.of(told, Engine.nextPage(cursor, address, document.address, run.steps(), told));
        } finally {
            Reference.reachabilityFence(this);
            Reference.reachabilityFence(document);
        }
    }
}
