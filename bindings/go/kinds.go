// Kinds of refusal. Made from bindings/numbers.json by `.ci/numbers --write`.

package jp

// A QueryKind tells why a query is refused, by the name that the program jp has for it.
type QueryKind string

// Each QueryKind.
const (
	// QuerySyntax: no query begins with the text up to the place and the character there.
	QuerySyntax QueryKind = "Syntax"

	// QueryTooDeep: more than 128 levels inside one another.
	QueryTooDeep QueryKind = "TooDeep"

	// QueryNotWhole: a literal with a fraction or an exponent.
	QueryNotWhole QueryKind = "NotWhole"

	// QueryNumberRange: a literal outside -(2^63) to (2^64)-1, or of decimals one that is too much for one.
	QueryNumberRange QueryKind = "NumberRange"

	// QueryIndexRange: an index or a part of a slice outside -(2^53)+1 to (2^53)-1.
	QueryIndexRange QueryKind = "IndexRange"

	// QueryUnknownFunction: no function of the profile has that name.
	QueryUnknownFunction QueryKind = "UnknownFunction"

	// QueryArgumentCount: a call with too many arguments or too few.
	QueryArgumentCount QueryKind = "ArgumentCount"

	// QueryNotSingular: a query that stands for one value and is not singular.
	QueryNotSingular QueryKind = "NotSingular"

	// QueryIllTyped: a call or an argument that does not fit what is wanted.
	QueryIllTyped QueryKind = "IllTyped"
)

// A DocumentKind tells what is wrong with a document, by the name that the program jp has for it.
type DocumentKind string

// Each DocumentKind.
const (
	// DocumentNotJson: no JSON, no UTF-8, or deeper than 127 levels.
	DocumentNotJson DocumentKind = "NotJson"

	// DocumentNotWhole: the text is the normalized path of the first number that is not.
	DocumentNotWhole DocumentKind = "NotWhole"

	// DocumentListTooLong: more than (2^53)-1 items.
	DocumentListTooLong DocumentKind = "ListTooLong"

	// DocumentNumberRange: the text is the normalized path of the first number that is too much for a decimal.
	DocumentNumberRange DocumentKind = "NumberRange"

	// DocumentTooLarge: 2^32 bytes or more.
	DocumentTooLarge DocumentKind = "DocumentTooLarge"
)
