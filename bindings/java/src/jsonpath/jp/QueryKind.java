package jsonpath.jp;

/** Why a query is refused. Made from bindings/numbers.json by .ci/numbers --write. */
public enum QueryKind {
    /** No query begins with the text up to the place and the character there. */
    SYNTAX(1, "Syntax"),
    /** More than 128 levels inside one another. */
    TOO_DEEP(2, "TooDeep"),
    /** A literal with a fraction or an exponent. */
    NOT_WHOLE(3, "NotWhole"),
    /** A literal outside -(2^63) to (2^64)-1, or of decimals one that is too much for one. */
    NUMBER_RANGE(4, "NumberRange"),
    /** An index or a part of a slice outside -(2^53)+1 to (2^53)-1. */
    INDEX_RANGE(5, "IndexRange"),
    /** No function of the profile has that name. */
    UNKNOWN_FUNCTION(6, "UnknownFunction"),
    /** A call with too many arguments or too few. */
    ARGUMENT_COUNT(7, "ArgumentCount"),
    /** A query that stands for one value and is not singular. */
    NOT_SINGULAR(8, "NotSingular"),
    /** A call or an argument that does not fit what is wanted. */
    ILL_TYPED(9, "IllTyped");

    private final int number;
    private final String told;

    QueryKind(int number, String told) {
        this.number = number;
        this.told = told;
    }

    static QueryKind of(int number) {
        for (QueryKind kind : values()) {
            if (kind.number == number) {
                return kind;
            }
        }
        throw new AssertionError("no kind of jp.h: " + number);
    }

    /** Its name, as the program jp tells it. */
    @Override
    public String toString() {
        return told;
    }
}
