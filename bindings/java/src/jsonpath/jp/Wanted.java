package jsonpath.jp;

/** What is asked for of the nodes: the form of their lines, and how many of the first, where 0 is all. */
record Wanted(int form, long count) {
    static final Wanted ALL = new Wanted(Codes.BOTH, 0);
    static final Wanted FIRST = new Wanted(Codes.BOTH, 1);
    static final Wanted ANY = new Wanted(Codes.PATHS, 1);
}
