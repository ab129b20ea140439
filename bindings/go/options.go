// What a query may have.

package jp

// Options say which functions a query may call, and which numbers it has. The zero value is what [Compile] takes: the
// functions of RFC 9535, and decimals.
type Options struct {
	// Extended lets the query call distinct, which gives each node of a nodelist once.
	Extended bool
	// Numbers are those of the query and of the documents that it is asked of.
	Numbers Numbers
}

// Numbers are those that a query has, and the documents that it is asked of. None is rounded.
type Numbers int

const (
	// Decimal numbers are exact: at most 38 digits, times a power of ten from -1,000,000 to 1,000,000.
	Decimal Numbers = iota
	// Whole numbers are those from -(2^63) to (2^64)-1. A document with any other is refused, and so is a query.
	Whole
)

// String gives their name in a sentence.
func (n Numbers) String() string {
	if n == Whole {
		return "whole numbers"
	}
	return "decimals"
}

// other gives the others.
func (n Numbers) other() Numbers {
	if n == Whole {
		return Decimal
	}
	return Whole
}
