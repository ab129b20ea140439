// A document that is kept.

package jp

import (
	"context"
	"sync"
)

// A Document is read once, to be asked many queries. It has a copy of its text, in memory of C that Go does not count:
// so [Document.Close] it when it is no longer needed. Calls over it take turns, from whichever goroutines they come. A
// query that has other numbers than the document was read with is not asked of it: the error is [ErrOtherNumbers].
type Document struct {
	numbers Numbers
	// The handle that keeps the document, unless a call uses it.
	turn    chan *handle
	closed  chan struct{}
	closing sync.Once
}

// NewDocument reads a JSON text, whose numbers are decimals. Where the bytes are no document the error is a
// [*DocumentError].
func NewDocument(text []byte) (*Document, error) {
	return NewDocumentWith(text, Decimal)
}

// NewDocumentWith reads a JSON text with these numbers, to be asked queries that have the same.
func NewDocumentWith(text []byte, numbers Numbers) (*Document, error) {
	kept, options := newHandle(), Options{Numbers: numbers}
	answer := kept.keepDocument(text, options)
	if err := faultOf(answer, "", options, text, Limit{}); err != nil {
		kept.free()
		return nil, err
	}
	document := &Document{numbers: numbers, turn: make(chan *handle, 1), closed: make(chan struct{})}
	document.turn <- kept
	return document, nil
}

// Numbers tells which numbers the document was read with.
func (d *Document) Numbers() Numbers {
	return d.numbers
}

// Close frees what the document keeps, at once and not when nothing refers to it any more. From then on it answers
// [ErrClosed]. A call that is being made is not cut short, and frees it.
func (d *Document) Close() error {
	if d.turn == nil {
		return nil
	}
	d.closing.Do(func() { close(d.closed) })
	d.freeIfUnused()
	return nil
}

// take waits for the handle, which one call at a time has.
func (d *Document) take(ctx context.Context) (*handle, error) {
	if d.turn == nil || d.isClosed() {
		return nil, ErrClosed
	}
	select {
	case kept := <-d.turn:
		return kept, nil
	case <-d.closed:
		return nil, ErrClosed
	case <-ctx.Done():
		return nil, ctx.Err()
	}
}

func (d *Document) giveBack(kept *handle) {
	d.turn <- kept
	if d.isClosed() {
		d.freeIfUnused()
	}
}

func (d *Document) isClosed() bool {
	select {
	case <-d.closed:
		return true
	default:
		return false
	}
}

func (d *Document) freeIfUnused() {
	select {
	case kept := <-d.turn:
		kept.free()
	default:
	}
}

func (d *Document) text() []byte {
	return nil
}

func (d *Document) own() Source {
	return d
}

func (d *Document) document(Numbers) (*Document, bool, error) {
	return d, false, nil
}
