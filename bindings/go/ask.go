// What a query is asked.

package jp

import "context"

// A Source is what a query is asked of: a [Text], or a [*Document].
type Source interface {
	// take gives the handle that keeps the document, for one call at a time, or nil where each call reads the bytes.
	take(ctx context.Context) (*handle, error)
	// giveBack takes it back.
	giveBack(kept *handle)
	// text gives the bytes that each call reads, if any.
	text() []byte
	// own gives the same, which no one writes when the call has returned.
	own() Source
	// document gives the same as a document, which is read with these numbers where it is made for that, and whether it is.
	document(numbers Numbers) (*Document, bool, error)
}

// A Text is the bytes of a JSON text. They may not be written while a call reads them.
type Text []byte

// Find gives the nodes that the query selects, in the order of RFC 9535; one that is selected twice stands there twice.
//
// Where a [Text] is no document the error is a [*DocumentError], and where the query goes beyond a limit a [*LimitError].
// Where a [*Document] was read with other numbers than the query has it is [ErrOtherNumbers].
func (q *Query) Find(source Source) ([]Node, error) {
	return q.FindContext(context.Background(), source)
}

// FindContext does what [Query.Find] does, and gives the error of the context as soon as that is done.
//
// It asks the query again and again, within a limit of steps that is four times as high each time, and looks at the
// context between. All these make less than two and a half times the steps of one. When the context is done, the one
// that is being made is left behind, and ends when it has made its steps.
func (q *Query) FindContext(ctx context.Context, source Source) ([]Node, error) {
	lines, err := q.lines(ctx, source, formBoth, all)
	if err != nil {
		return nil, err
	}
	return nodesOf(lines), nil
}

// First gives the first node that the query selects, with which the evaluation stops, and whether there is one.
func (q *Query) First(source Source) (Node, bool, error) {
	return q.FirstContext(context.Background(), source)
}

// FirstContext does what [Query.First] does until the context is done, as [Query.FindContext] does.
func (q *Query) FirstContext(ctx context.Context, source Source) (Node, bool, error) {
	lines, err := q.lines(ctx, source, formBoth, first)
	if len(lines) == 0 {
		return Node{}, false, err
	}
	return nodesOf(lines)[0], true, nil
}

// Exists tells whether the query selects any node. The evaluation stops with the first.
func (q *Query) Exists(source Source) (bool, error) {
	return q.ExistsContext(context.Background(), source)
}

// ExistsContext does what [Query.Exists] does until the context is done, as [Query.FindContext] does.
func (q *Query) ExistsContext(ctx context.Context, source Source) (bool, error) {
	lines, err := q.lines(ctx, source, formPaths, first)
	return len(lines) > 0, err
}

// Iter gives the nodes that the query selects one after another, looked for as they are asked for.
func (q *Query) Iter(source Source) *Iter {
	return q.IterContext(context.Background(), source)
}

// IterContext does what [Query.Iter] does until the context is done, as [Query.FindContext] does.
func (q *Query) IterContext(ctx context.Context, source Source) *Iter {
	return newIter(ctx, q, source)
}

// lines gives the lines of the nodes asked for.
func (q *Query) lines(ctx context.Context, source Source, form uint32, count count) ([]byte, error) {
	size := len(source.text())
	asked := runs{q.limit, size, func(source Source) run {
		return func(limit Limit) ([]byte, error) { return q.once(ctx, source, form, count, limit) }
	}}
	return asked.make(ctx, source)
}

// once gives the lines in one call.
func (q *Query) once(ctx context.Context, source Source, form uint32, count count, limit Limit) ([]byte, error) {
	// Whoever waits for a document holds no query meanwhile.
	document, err := source.take(ctx)
	if err != nil {
		return nil, err
	}
	defer source.giveBack(document)
	asker, err := q.kept.take()
	if err != nil {
		return nil, err
	}
	text := source.text()
	answer := asker.ask(document, text, form, count, limit)
	q.kept.giveBack(asker, larger(len(text), len(answer.text)))
	if err := faultOf(answer, q.kept.text, q.kept.options, text, limit); err != nil {
		return nil, err
	}
	return answer.text, nil
}

func (t Text) take(context.Context) (*handle, error) {
	return nil, nil
}

func (t Text) giveBack(*handle) {}

func (t Text) text() []byte {
	return t
}

func (t Text) own() Source {
	return append(Text(nil), t...)
}

func (t Text) document(numbers Numbers) (*Document, bool, error) {
	document, err := NewDocumentWith(t, numbers)
	return document, true, err
}

func larger(one, other int) int {
	if one > other {
		return one
	}
	return other
}
