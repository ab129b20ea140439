// Many queries over one document.

package jp

import "errors"

// Queries are asked together of a document that is read once for all of them, and once more where what they select takes
// more than 4 KiB. One that is refused stops no other.
type Queries struct {
	// Texts are the queries.
	Texts []string
	// Extended lets them call distinct.
	Extended bool
	// Numbers are those of the queries and of the document.
	Numbers Numbers
	// Limit is that of each.
	Limit Limit
}

// An Answer is what a query selects, or why there is no answer.
type Answer struct {
	Nodes []Node
	Err   error
}

// Find gives what each query selects, in the order of the queries. A query that names one location makes no steps in
// [Query.Find], and here a few for each name or index.
func (q Queries) Find(text Text) []Answer {
	answers := make([]Answer, len(q.Texts))
	// Why the document is refused is asked for once, since that reads it again.
	var refusal error
	options := Options{Extended: q.Extended, Numbers: q.Numbers}
	for at, answer := range evalMany(q.Texts, options, text, q.Limit) {
		err := refusal
		if answer.status != documentRefused || refusal == nil {
			err = faultOf(answer, q.Texts[at], options, text, q.Limit)
		}
		if err != nil {
			answers[at].Err = err
		} else {
			answers[at].Nodes = nodesOf(answer.text)
		}
		if fault := (*DocumentError)(nil); errors.As(err, &fault) {
			refusal = err
		}
	}
	return answers
}
