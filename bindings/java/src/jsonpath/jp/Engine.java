package jsonpath.jp;

/**
 * The methods that jni.c has, one for each call of jp.h that is used.
 *
 * <p>Texts are UTF-8; null stands for none. What a call tells comes last, {@link #TOLD} numbers: its status, a kind, a
 * place, and the steps. A limit of 0 is none. A handle is an address, of which only {@link Handle} knows.
 */
final class Engine {
    /** As many numbers as a call tells. */
    static final int TOLD = 4;

    static {
        Library.load();
    }

    private Engine() {}

    /** The version: 65536 times the major number, 256 times the minor one, and the patch. */
    static native int version();

    /** Whether this thread has stack enough left for each call. */
    static native boolean hasRoom();

    /** A handle that keeps nothing, or 0 where memory ran out. */
    static native long newHandle();

    /** Frees the handle with what it keeps; false, and nothing was done, where this thread has no room for that. */
    static native boolean free(long handle);

    /** Keeps the query. */
    static native void keepQuery(long handle, byte[] query, int profile, long[] told);

    /** Keeps the document; gives the path of a number that the profile has not. */
    static native byte[] keepDocument(long handle, byte[] document, int profile, long[] told);

    /** The canonical text of the query. */
    static native byte[] canonical(byte[] query, int profile, long[] told);

    /** Why the query is refused. */
    static native byte[] explain(byte[] query, int profile, int part, long[] told);

    /** Why the document is refused, and where: the byte, the line and the column. */
    static native byte[] explainDocument(byte[] document, int profile, int part, long[] place, long[] told);

    /** The lines of as many of the first nodes as the count says, where 0 is all; or the path of a number. */
    static native byte[] ask(
            long query, byte[] document, int form, long count, long steps, long nodes, long bytes, long[] told);

    /** The lines of these nodes of a document that is kept. */
    static native byte[] askDocument(
            long query, long document, int form, long count, long steps, long nodes, long bytes, long[] told);

    /** The lines of the next page, behind which the cursor then stands; none after the last. */
    static native byte[] nextPage(long[] cursor, long query, long document, long steps, long[] told);

    /**
     * The lines of all queries, whose text is one and each of which ends at a byte of it. As many numbers are told of
     * each as of one call, with the length of its lines in place of the steps. Null where memory ran out.
     */
    static native byte[] askMany(
            byte[] queries, long[] ends, byte[] document, int profile, long steps, long nodes, long bytes, long[] told);
}
