// What of this package is C, and unsafe: each call of libjp.a, what it owes and what it tells.

package jp

// #cgo CFLAGS: -std=gnu11 -Wall -Wextra
// #include "raw.h"
import "C"

import (
	"runtime"
	"unsafe"
)

// How a call ends.
const (
	done            = C.JP_DONE
	queryRefused    = C.JP_QUERY_REFUSED
	documentRefused = C.JP_DOCUMENT_REFUSED
	noMemory        = C.JP_NO_MEMORY
	stepsUsedUp     = C.JP_STEPS_USED_UP
	noStack         = C.JP_NO_STACK
	tooManyNodes    = C.JP_TOO_MANY_NODES
	tooManyBytes    = C.JP_TOO_MANY_BYTES
	otherNumbers    = C.JP_OTHER_NUMBERS
)

// What is given of each node.
const (
	formPaths = C.JP_PATHS
	formBoth  = C.JP_BOTH
)

// What is told of why a query or a document is refused.
const (
	explanation      = C.JP_EXPLANATION
	sentence         = C.JP_SENTENCE
	suggestion       = C.JP_SUGGESTION
	documentSentence = C.JP_DOCUMENT_SENTENCE
	documentReason   = C.JP_DOCUMENT_REASON
)

// As many bytes as a text is first given.
const firstRoom = 4096

// What a call tells, with a copy of its text.
type told struct {
	status uint32
	kind   uint32
	place  int
	text   []byte
}

// Where a document that is refused goes wrong.
type place struct {
	offset, line, column int
}

// Which nodes are asked for: of all so many, where 0 is all.
type count uint64

const (
	all   count = 0
	first count = 1
)

// A handle keeps a query, a document, or nothing, in memory of C. What it keeps is freed when nothing refers to the
// handle any more, if not before. No two calls use it at once.
type handle struct {
	kept C.struct_jp_handle
}

func newHandle() *handle {
	h := new(handle)
	runtime.SetFinalizer(h, (*handle).free)
	return h
}

// free frees what the handle keeps. Where the thread has too little stack for it and no other can be had, that stays.
func (h *handle) free() {
	runtime.SetFinalizer(h, nil)
	C.jp_go_make(C.struct_jp_go_call{call: C.JP_GO_CLEAR, handle: &h.kept})
}

// keepQuery keeps the query, where it is accepted.
func (h *handle) keepQuery(text string, options Options) told {
	call := ofQuery(C.JP_GO_QUERY_NEW, []byte(text), options)
	call.handle = &h.kept
	return lent(C.jp_go_make(call))
}

// keepDocument keeps the document, where it is one; else the text is the path of a number that is none of the options.
func (h *handle) keepDocument(document []byte, options Options) told {
	call := ofDocument(C.JP_GO_DOCUMENT_NEW, document, options)
	call.handle = &h.kept
	answer, _ := written(call, firstRoom)
	return answer
}

// ask asks the query that the handle keeps of the document that the other does, or of a JSON text where there is none.
func (h *handle) ask(document *handle, text []byte, form uint32, count count, limit Limit) told {
	call := ofDocument(C.JP_GO_ASK, text, Options{})
	if document != nil {
		call = C.struct_jp_go_call{call: C.JP_GO_ASK_DOCUMENT, kept: &document.kept}
	}
	call.handle = &h.kept
	call.form, call.count, call.limit = C.uint32_t(form), C.uint64_t(count), limit.inC()
	return lent(C.jp_go_make(call))
}

// A cursor stands among the nodes of a document that is kept, at first before all of them.
type cursor struct {
	at C.struct_jp_cursor
}

// nextPage gives the next lines, of the document that the other handle keeps, in so many steps.
func (h *handle) nextPage(document *handle, cursor *cursor, steps uint64) told {
	call := C.struct_jp_go_call{call: C.JP_GO_NEXT_PAGE, handle: &h.kept, kept: &document.kept, cursor: &cursor.at}
	call.limit.steps = C.uint64_t(steps)
	return lent(C.jp_go_make(call))
}

// evalMany asks many queries of a JSON text, each of which has its own answer.
func evalMany(texts []string, options Options, document []byte, limit Limit) []told {
	if len(texts) == 0 {
		return nil
	}
	queries, questions := questionsOf(texts)
	call := ofQuery(C.JP_GO_EVAL_MANY, queries, options)
	call.document, call.document_length = start(document), C.size_t(len(document))
	call.questions, call.questions_length = &questions[0], C.size_t(len(texts))
	call.form, call.limit = formBoth, limit.inC()
	answer, _ := written(call, firstRoom)
	answers, rest := make([]told, len(texts)), answer.text
	for at, question := range questions {
		report := question.report
		answers[at] = told{uint32(report.status), uint32(report.kind), int(report.place), rest[:report.length]}
		rest = rest[report.length:]
	}
	return answers
}

// questionsOf gives the texts in one, and where each stands in it.
func questionsOf(texts []string) ([]byte, []C.struct_jp_question) {
	var queries []byte
	questions := make([]C.struct_jp_question, len(texts))
	for at, text := range texts {
		questions[at].start, questions[at].size = C.size_t(len(queries)), C.size_t(len(text))
		queries = append(queries, text...)
	}
	return queries, questions
}

// canonical writes the canonical text of a query.
func canonical(query string, options Options) told {
	answer, _ := written(ofQuery(C.JP_GO_CANON, []byte(query), options), firstRoom)
	return answer
}

// explain tells a part of why a query is refused.
func explain(query string, options Options, part uint32) string {
	call := ofQuery(C.JP_GO_EXPLAIN, []byte(query), options)
	call.part = C.uint32_t(part)
	answer, _ := written(call, firstRoom)
	return string(answer.text)
}

// explainDocument tells where a document goes wrong, and a part of why.
func explainDocument(document []byte, options Options, part uint32) (place, string) {
	call := ofDocument(C.JP_GO_EXPLAIN_DOCUMENT, document, options)
	call.part = C.uint32_t(part)
	answer, at := written(call, firstRoom)
	return at, string(answer.text)
}

// kindName gives the name of a kind of refusal.
func kindName(status, kind uint32) string {
	call := C.struct_jp_go_call{call: C.JP_GO_KIND_NAME, status: C.uint32_t(status), kind: C.uint32_t(kind)}
	answer, _ := written(call, firstRoom)
	return string(answer.text)
}

// stepAt gives the step of a normalized path that stands at a byte, and where the next one does; nil where there is none.
func stepAt(path, name []byte, at int) (step any, next int) {
	found := C.jp_go_step_at(start(path), C.size_t(len(path)), C.size_t(at), start(name))
	if found.is_there == 0 {
		return nil, at
	}
	if found.is_name == 0 {
		return int(found.index), int(found.next)
	}
	return string(name[:found.name_length]), int(found.next)
}

func version() uint32 {
	return uint32(C.jp_version())
}

func ofQuery(call C.uint32_t, query []byte, options Options) C.struct_jp_go_call {
	made := C.struct_jp_go_call{call: call, query: start(query), query_length: C.size_t(len(query))}
	made.profile = options.profile()
	return made
}

// ofDocument is of a document whose numbers are those of the options.
func ofDocument(call C.uint32_t, document []byte, options Options) C.struct_jp_go_call {
	made := C.struct_jp_go_call{call: call, document: start(document), document_length: C.size_t(len(document))}
	made.profile = options.profile()
	return made
}

func (o Options) profile() C.uint32_t {
	switch {
	case o.Numbers == Whole && o.Extended:
		return C.JP_EXTENDED
	case o.Numbers == Whole:
		return C.JP_STANDARD
	case o.Extended:
		return C.JP_EXTENDED_DECIMAL
	}
	return C.JP_DECIMAL
}

func (l Limit) inC() C.struct_jp_limit {
	return C.struct_jp_limit{steps: C.uint64_t(l.Steps), nodes: C.uint64_t(l.Nodes), bytes: C.uint64_t(l.Bytes)}
}

// A call takes an address also where there are no bytes.
var nothing [1]byte

func start(bytes []byte) *C.uint8_t {
	if len(bytes) == 0 {
		bytes = nothing[:]
	}
	return (*C.uint8_t)(unsafe.Pointer(&bytes[0]))
}

// lent copies what a handle lends, which it does until its next call.
func lent(it C.struct_jp_go_told) told {
	answer := told{uint32(it.report.status), uint32(it.report.kind), int(it.report.place), nil}
	if it.text.length > 0 {
		answer.text = append([]byte(nil), unsafe.Slice((*byte)(it.text.start), it.text.length)...)
	}
	return answer
}

// written makes a call that writes its text, and makes it again where the room is too small.
func written(call C.struct_jp_go_call, size int) (told, place) {
	room := make([]byte, size)
	call.out, call.out_length = start(room), C.size_t(size)
	it := C.jp_go_make(call)
	if int(it.report.length) > size {
		return written(call, int(it.report.length))
	}
	at := place{int(it.place.offset), int(it.place.line), int(it.place.column)}
	return told{uint32(it.report.status), uint32(it.report.kind), int(it.report.place), room[:it.report.length]}, at
}

// textOf gives bytes as a text without copying them. No one may write them from then on.
func textOf(bytes []byte) string {
	return *(*string)(unsafe.Pointer(&bytes))
}
