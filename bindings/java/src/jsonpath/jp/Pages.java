package jsonpath.jp;

import java.util.Iterator;
import java.util.NoSuchElementException;

/** The nodes that a query selects in a document, which the engine gives by pages. */
final class Pages implements Iterator<Node> {
    /** As many numbers as a cursor of jp.h has beside its lines. */
    private static final int CURSOR = 5;

    private final Query query;
    private final Document document;
    private final long[] cursor = new long[CURSOR];
    private Lines page = new Lines(new byte[0]);
    private boolean isLast;

    Pages(Query query, Document document) {
        this.query = query;
        this.document = document;
    }

    @Override
    public boolean hasNext() {
        if (!page.hasNext() && !isLast) {
            isLast = true;
            page = new Lines(query.nextPage(document, cursor));
            isLast = !page.hasNext();
        }
        return page.hasNext();
    }

    @Override
    public Node next() {
        if (!hasNext()) {
            throw new NoSuchElementException();
        }
        return page.next();
    }
}
