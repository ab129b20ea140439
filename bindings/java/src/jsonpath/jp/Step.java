package jsonpath.jp;

/** A step of a normalized path: the name of a member, or the index of an item. */
public sealed interface Step {
    /**
     * The name of a member.
     *
     * @param name the name, without quotation marks and escapes
     */
    record Name(String name) implements Step {}

    /**
     * The index of an item.
     *
     * @param index the index, from 0
     */
    record Index(long index) implements Step {}
}
