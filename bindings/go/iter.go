// Nodes one after another.

package jp

import (
	"bytes"
	"context"
)

// An Iter gives nodes one after another, looked for as they are asked for: the first is found without the others.
//
//	nodes := query.Iter(document)
//	defer nodes.Close()
//	for nodes.Next() {
//		fmt.Println(nodes.Node())
//	}
//	if err := nodes.Err(); err != nil { ..
//
// It asks for pages of nodes, which all together make no more steps than jp's page EMBED says (One node after another).
// Of the query's limits that of steps alone holds, for each page; where all nodes need more, some of the first may be
// given, and then the error. A [Text] is read at once, and kept until the last node was given, or [Iter.Close].
//
// One goroutine at a time uses an Iter. What is between two calls of Next keeps no other call waiting.
type Iter struct {
	ctx      context.Context
	query    *Query
	document *Document
	isOwn    bool
	cursor   *cursor
	page     []byte
	node     Node
	err      error
	isLast   bool
}

func newIter(ctx context.Context, query *Query, source Source) *Iter {
	document, isOwn, err := source.document(query.Numbers())
	it := &Iter{ctx: ctx, query: query, document: document, isOwn: isOwn, cursor: new(cursor), err: err}
	if err != nil {
		it.isLast, it.isOwn = true, false
	}
	return it
}

// Next looks for the next node, and tells whether there is one. There is none after the last, an error or [Iter.Close].
func (it *Iter) Next() bool {
	if len(it.page) == 0 && !it.isLast {
		it.page, it.err = it.nextPage()
		if len(it.page) == 0 {
			it.Close()
		}
	}
	if len(it.page) == 0 {
		it.node = Node{}
		return false
	}
	end := bytes.IndexByte(it.page, '\n')
	it.node, it.page = nodeOf(it.page[:end]), it.page[end+1:]
	return true
}

// Node gives the node for which Next looked.
func (it *Iter) Node() Node {
	return it.node
}

// Err gives the error that ended the iteration, if any did.
func (it *Iter) Err() error {
	return it.err
}

// Close ends the iteration, and frees what it keeps.
func (it *Iter) Close() error {
	it.isLast, it.page = true, nil
	if it.isOwn {
		return it.document.Close()
	}
	return nil
}

// All gives the nodes to a function, until that says false; or an error as the last. From Go 1.23 on it is what a loop
// goes over, and in each version it may be called. It closes the Iter.
//
//	for node, err := range query.Iter(document).All() { ..
func (it *Iter) All() func(yield func(Node, error) bool) {
	return func(yield func(Node, error) bool) {
		defer it.Close()
		for it.Next() {
			if !yield(it.node, nil) {
				return
			}
		}
		if it.err != nil {
			yield(Node{}, it.err)
		}
	}
}

func (it *Iter) nextPage() ([]byte, error) {
	asked := runs{Limit{Steps: it.query.limit.Steps}, 0, func(Source) run { return it.once }}
	return asked.make(it.ctx, it.document)
}

// once gives the next page in one call. The cursor stands where it stood where there is an error.
func (it *Iter) once(limit Limit) ([]byte, error) {
	document, err := it.document.take(it.ctx)
	if err != nil {
		return nil, err
	}
	defer it.document.giveBack(document)
	kept := it.query.kept
	asker, err := kept.take()
	if err != nil {
		return nil, err
	}
	answer := asker.nextPage(document, it.cursor, limit.Steps)
	kept.giveBack(asker, len(answer.text))
	return answer.text, faultOf(answer, kept.text, kept.options, nil, limit)
}
