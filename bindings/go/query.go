// A query that is accepted, and the handles that keep it.

package jp

import "sync"

// A Query is a query that is accepted. It can be asked of any number of documents, from any goroutines at once.
type Query struct {
	kept  *keptQuery
	limit Limit
}

// A Limit is the most that a query may do over a document, and give of it. 0 is no limit.
type Limit struct {
	// Steps are those of the evaluation: about one for each value that is looked at, and for each byte that is compared
	// or matched. Some queries take years over a document of a few bytes, so whoever asks queries of strangers gives
	// this one.
	Steps uint64
	// Nodes are those of the answer.
	Nodes uint64
	// Bytes are those of the answer, of which each node has the bytes of its path and of its value, and two more. Of
	// Exists they are those of the first node's path, and one more.
	Bytes uint64
}

// Compile reads a query with the functions of RFC 9535, and with decimals. Where it is refused the error is a
// [*QueryError].
func Compile(text string) (*Query, error) {
	return CompileWith(text, Options{})
}

// CompileExtended reads a query that may also call distinct, which gives each node of a nodelist once.
func CompileExtended(text string) (*Query, error) {
	return CompileWith(text, Options{Extended: true})
}

// MustCompile reads a query as [Compile] does, and panics where it is refused. It is for queries that stand in a program.
func MustCompile(text string) *Query {
	query, err := Compile(text)
	if err != nil {
		panic("jp: " + err.Error())
	}
	return query
}

// CompileWith reads a query with these options, as whole numbers: CompileWith(text, Options{Numbers: Whole}).
func CompileWith(text string, options Options) (*Query, error) {
	kept := &keptQuery{text: text, options: options}
	handle, err := kept.take()
	if err != nil {
		return nil, err
	}
	kept.giveBack(handle, 0)
	return &Query{kept: kept}, nil
}

// WithLimit gives the query with another limit. The two share what is kept, so [Query.Close] of one closes both.
func (q *Query) WithLimit(limit Limit) *Query {
	return &Query{q.kept, limit}
}

// Limit tells the query's limit.
func (q *Query) Limit() Limit {
	return q.limit
}

// Extended tells whether the query may call distinct.
func (q *Query) Extended() bool {
	return q.options().Extended
}

// Numbers tells which numbers the query has.
func (q *Query) Numbers() Numbers {
	return q.options().Numbers
}

func (q *Query) options() Options {
	if q.kept == nil {
		return Options{}
	}
	return q.kept.options
}

// String gives the query as it was given.
func (q *Query) String() string {
	if q.kept == nil {
		return ""
	}
	return q.kept.text
}

// Canonical gives the query's canonical text, which is equal for equal queries, however they are spelled.
func (q *Query) Canonical() (string, error) {
	if q.kept == nil {
		return "", ErrClosed
	}
	answer := canonical(q.String(), q.options())
	if err := faultOf(answer, q.String(), q.options(), nil, q.limit); err != nil {
		return "", err
	}
	return string(answer.text), nil
}

// Close frees what the query keeps, at once and not when nothing refers to it any more. From then on it answers
// [ErrClosed]. Calls that are being made are not cut short.
func (q *Query) Close() error {
	if q.kept != nil {
		q.kept.close()
	}
	return nil
}

// What a handle is not kept after: a longer document or answer, by whose memory it grew, and so many others that no call
// uses. Go does not see that memory, so little of it is left to a query that may never be asked again.
const (
	largestKept  = 1 << 20
	largestFirst = 1 << 16
	mostSpare    = 16
)

// A keptQuery is a query in as many handles as calls ask it at once.
type keptQuery struct {
	text     string
	options  Options
	mutex    sync.Mutex
	spare    []*handle
	isAsked  bool
	isClosed bool
}

// take gives a handle that keeps the query, for one call at a time.
func (k *keptQuery) take() (*handle, error) {
	if k == nil {
		return nil, ErrClosed
	}
	handle, err := k.takeSpare()
	if handle != nil || err != nil {
		return handle, err
	}
	handle = newHandle()
	answer := handle.keepQuery(k.text, k.options)
	return handle, faultOf(answer, k.text, k.options, nil, Limit{})
}

func (k *keptQuery) takeSpare() (*handle, error) {
	k.mutex.Lock()
	defer k.mutex.Unlock()
	if k.isClosed {
		return nil, ErrClosed
	}
	last := len(k.spare) - 1
	if last < 0 {
		return nil, nil
	}
	handle := k.spare[last]
	k.spare[last], k.spare = nil, k.spare[:last]
	return handle, nil
}

// giveBack takes a handle back after a call over so many bytes, and keeps it unless these, or the others, are many.
func (k *keptQuery) giveBack(handle *handle, size int) {
	k.mutex.Lock()
	most := largestFirst
	if k.isAsked {
		most = largestKept
	}
	isKept := !k.isClosed && size <= most && len(k.spare) < mostSpare
	k.isAsked = k.isAsked || size > 0
	if isKept {
		k.spare = append(k.spare, handle)
	}
	k.mutex.Unlock()
	if !isKept {
		handle.free()
	}
}

func (k *keptQuery) close() {
	k.mutex.Lock()
	spare := k.spare
	k.spare, k.isClosed = nil, true
	k.mutex.Unlock()
	for _, handle := range spare {
		handle.free()
	}
}
