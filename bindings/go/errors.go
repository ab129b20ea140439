// Why there is no answer.

package jp

import (
	"bytes"
	"errors"
	"fmt"
)

const byLines = "Where each line is a document (JSON Lines), ask one after another, as bufio.Scanner gives them."

// Errors without more to tell, or which a [LimitError] wraps.
var (
	// ErrStepsUsedUp is that of a query which needs more steps over the document than its limit.
	ErrStepsUsedUp = errors.New("steps used up")
	// ErrTooManyNodes is that of a query which selects more nodes than its limit.
	ErrTooManyNodes = errors.New("too many nodes")
	// ErrTooManyBytes is that of a query whose answer has more bytes than its limit.
	ErrTooManyBytes = errors.New("too many bytes")
	// ErrOtherNumbers is that of a query which has other numbers than the document was read with.
	ErrOtherNumbers = errors.New("other numbers")
	// ErrClosed is that of a query or a document which was closed, or was never made.
	ErrClosed = errors.New("jp: the query or the document is closed")
	// ErrNoMemory is that of a call for which there is too little memory.
	ErrNoMemory = errors.New("jp: memory ran out")
	// ErrNoStack is that of a call for which its thread has too little stack, where no other thread could be started.
	ErrNoStack = errors.New("jp: no thread with enough stack could be started")
)

// A QueryError is a query that is refused.
type QueryError struct {
	// Kind is the kind of refusal.
	Kind QueryKind
	// Place is the byte of the query at which it is refused, from 0; the query's length where it ends too soon. A
	// character begins there, or the query ends.
	Place int
	// Query is the query.
	Query string
	// Sentence is why it is refused, told to whoever typed it. The wording may change. Empty where memory ran out.
	Sentence string
	// Suggestion is a query that is accepted, where it is plain what was meant, or else empty.
	Suggestion string

	options Options
}

// A DocumentError is a document that is refused.
type DocumentError struct {
	// Kind is what is wrong with it.
	Kind DocumentKind
	// Path is, of DocumentNotWhole, the normalized path of the first number that is not a whole one of 64 bits, and of
	// DocumentNumberRange that of the first one that is too much for a decimal.
	Path string
	// Offset is the byte through which no JSON text goes on, or where what is wrong begins, from 0; the document's length
	// where it ends too soon.
	Offset int
	// Line is the number of that byte's line, from 1; 0 where nothing was read, as of DocumentTooLarge, or memory ran out.
	Line int
	// Column is its column in that line, in characters from 1; 0 where the line is.
	Column int
	// Reason is the name of the reason, as TrailingComma. Empty where the line is 0.
	Reason string
	// Sentence is why it is refused, told to whoever wrote it. The wording may change. Empty where the line is 0.
	Sentence string
	// Suggestion is how a text is asked that looks like JSON Lines, where each line is a document, or else empty.
	Suggestion string
}

// A LimitError is a query that goes beyond a limit over a document.
type LimitError struct {
	// Err is ErrStepsUsedUp, ErrTooManyNodes or ErrTooManyBytes.
	Err error
	// Limit is the limit.
	Limit uint64
	// Query is the query.
	Query string
}

// Error tells the kind, the place, the sentence and the suggestion.
func (e *QueryError) Error() string {
	text := fmt.Sprintf("query refused: %s at %d", e.Kind, e.Place)
	if e.Sentence != "" {
		text += ": " + e.Sentence
	}
	if e.Suggestion != "" {
		text += " Try: " + e.Suggestion
	}
	return text
}

// Explanation tells all for a terminal, in lines: the line of the query that holds the place, a caret below the place,
// the sentence, and the suggestion.
func (e *QueryError) Explanation() string {
	return explain(e.Query, e.options, explanation)
}

// Error tells the kind, the path, the line, the column, the sentence and the suggestion.
func (e *DocumentError) Error() string {
	text := "document refused: " + string(e.Kind)
	if e.Path != "" {
		text += " at " + e.Path
	}
	if e.Line > 0 {
		text += fmt.Sprintf(": line %d, column %d: %s", e.Line, e.Column, e.Sentence)
	}
	if e.Suggestion != "" {
		text += " " + e.Suggestion
	}
	return text
}

// Error tells which limit it is.
func (e *LimitError) Error() string {
	switch e.Err {
	case ErrTooManyNodes:
		return fmt.Sprintf("%v: the query selects more than %d", e.Err, e.Limit)
	case ErrTooManyBytes:
		return fmt.Sprintf("%v: the answer has more than %d", e.Err, e.Limit)
	}
	return fmt.Sprintf("%v: the query needs more than %d", e.Err, e.Limit)
}

// Unwrap gives Err.
func (e *LimitError) Unwrap() error {
	return e.Err
}

// faultOf gives the error that what a call told stands for, if there is one.
func faultOf(it told, query string, options Options, document []byte, limit Limit) error {
	switch it.status {
	case done:
		return nil
	case queryRefused:
		return newQueryError(it, query, options)
	case documentRefused:
		return newDocumentError(it, document, options)
	case stepsUsedUp:
		return &LimitError{ErrStepsUsedUp, limit.Steps, query}
	case tooManyNodes:
		return &LimitError{ErrTooManyNodes, limit.Nodes, query}
	case tooManyBytes:
		return &LimitError{ErrTooManyBytes, limit.Bytes, query}
	case otherNumbers:
		return newOtherNumbers(options.Numbers.other())
	case noMemory:
		return ErrNoMemory
	case noStack:
		return ErrNoStack
	}
	panic(fmt.Sprintf("jp: the status %d of no answer", it.status))
}

func newQueryError(it told, query string, options Options) *QueryError {
	return &QueryError{
		Kind:       QueryKind(kindName(queryRefused, it.kind)),
		Place:      it.place,
		Query:      query,
		Sentence:   explain(query, options, sentence),
		Suggestion: explain(query, options, suggestion),
		options:    options,
	}
}

// newOtherNumbers gives the error of a document that was read with these numbers, and of a query that has others.
func newOtherNumbers(read Numbers) error {
	const what = "%w: the document was read with %v, which the query has not: read one of them with the numbers of the " +
		"other, by NewDocumentWith or CompileWith"
	return fmt.Errorf(what, ErrOtherNumbers, read)
}

func newDocumentError(it told, document []byte, options Options) *DocumentError {
	at, reason := explainDocument(document, options, documentReason)
	_, why := explainDocument(document, options, documentSentence)
	suggestion := ""
	if reason == "AfterValue" && isLine(document[:at.offset]) {
		suggestion = byLines
	}
	return &DocumentError{
		Kind:     DocumentKind(kindName(documentRefused, it.kind)),
		Path:     string(it.text),
		Offset:   at.offset,
		Line:     at.line,
		Column:   at.column,
		Reason:   reason,
		Sentence: why,

		Suggestion: suggestion,
	}
}

// isLine tells whether all that stands before what is wrong is a value on one line, and the end of that line.
func isLine(before []byte) bool {
	isEnded := bytes.HasSuffix(bytes.TrimRight(before, " \t"), []byte{'\n'})
	return isEnded && !bytes.Contains(bytes.TrimSpace(before), []byte{'\n'})
}
