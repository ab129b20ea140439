// What is kept: that it is freed, at once by Close or else when nothing refers to it; and that what is closed, or was
// never made, answers with an error.

package jp_test

import (
	"bytes"
	"context"
	"errors"
	"fmt"
	"os"
	"runtime"
	"strings"
	"testing"

	jp "jsonpath-jp"
)

// resident tells how many bytes of memory the process has.
func resident(t *testing.T) int {
	text, err := os.ReadFile("/proc/self/statm")
	if err != nil {
		t.Fatal(err)
	}
	var size, pages int
	if _, err := fmt.Sscan(string(text), &size, &pages); err != nil {
		t.Fatal(err)
	}
	return pages * os.Getpagesize()
}

// leavesNothing makes a call so often, and ends the test where the process has more memory then than after a tenth as
// many calls before.
func leavesNothing(t *testing.T, what string, count int, call func()) {
	t.Helper()
	for made := 0; made < count/10; made++ {
		call()
	}
	runtime.GC()
	before := resident(t)
	for made := 0; made < count; made++ {
		call()
	}
	runtime.GC()
	if more := resident(t) - before; more > 8<<20 {
		t.Fatalf("%s: %d bytes more", what, more)
	}
}

func TestCallsLeaveNothingBehind(t *testing.T) {
	query, few := jp.MustCompile("$.a[*]"), jp.MustCompile("$.a[*]").WithLimit(jp.Limit{Steps: 1})
	text := jp.Text(`{"a":[7` + strings.Repeat(",8.95", 1000) + `]}`)
	document, _ := jp.NewDocument(text)
	defer document.Close()
	leavesNothing(t, "a document that is kept", 100_000, func() {
		if is, err := query.Exists(document); !is || err != nil {
			t.Fatal(is, err)
		}
	})
	leavesNothing(t, "a text", 50_000, func() {
		if is, err := query.Exists(jp.Text(`{"a":[7]}`)); !is || err != nil {
			t.Fatal(is, err)
		}
	})
	leavesNothing(t, "an error", 25_000, func() {
		if _, err := few.Find(jp.Text(`{"a":[7]}`)); err == nil {
			t.Fatal("too few steps")
		}
	})
	leavesNothing(t, "an iteration that is left early", 10_000, func() {
		nodes := query.Iter(text)
		defer nodes.Close()
		if !nodes.Next() || nodes.Node().Path != "$['a'][0]" {
			t.Fatal(nodes.Err())
		}
	})
	leavesNothing(t, "queries that are closed", 25_000, func() { jp.MustCompile("$.a[?@.b==1]").Close() })
}

// Some MB each, of which Go sees next to nothing.
func TestDocumentsAreFreed(t *testing.T) {
	text := bytes.Join([][]byte{[]byte("[0"), bytes.Repeat([]byte(",[1]"), 50_000), []byte("]")}, nil)
	leavesNothing(t, "closed", 100, func() {
		document, err := jp.NewDocument(text)
		if err != nil {
			t.Fatal(err)
		}
		document.Close()
	})
	leavesNothing(t, "forgotten", 100, func() {
		if _, err := jp.NewDocument(text); err != nil {
			t.Fatal(err)
		}
		runtime.GC()
	})
	query := jp.MustCompile("$[0]")
	leavesNothing(t, "an iteration that is forgotten", 100, func() {
		if nodes := query.Iter(jp.Text(text)); !nodes.Next() {
			t.Fatal(nodes.Err())
		}
		runtime.GC()
	})
	leavesNothing(t, "an iteration that ends", 100, func() {
		for nodes := query.Iter(jp.Text(text)); nodes.Next(); {
		}
	})
	leavesNothing(t, "a query that was asked of a long text", 100, func() {
		if nodes, err := jp.MustCompile("$[?@==0]").Find(jp.Text(text)); len(nodes) != 1 {
			t.Fatal(err)
		}
	})
}

// asks gives the error of each call of a query over a source.
func asks(query *jp.Query, source jp.Source) []error {
	_, find := query.Find(source)
	_, _, first := query.First(source)
	_, exists := query.Exists(source)
	ctx, cancel := context.WithCancel(context.Background())
	defer cancel()
	_, within := query.FindContext(ctx, source)
	nodes := query.Iter(source)
	nodes.Next()
	return []error{find, first, exists, within, nodes.Err()}
}

func TestWhatIsClosed(t *testing.T) {
	query, document := jp.MustCompile("$[0]"), sources(t, "[1]")[1].(*jp.Document)
	other := query.WithLimit(jp.Limit{Steps: 100})
	open := jp.MustCompile("$[0]")
	nodes := jp.MustCompile("$[*]").Iter(document)
	for closed := 0; closed < 3; closed++ {
		same(t, "close", []error{query.Close(), document.Close()}, []error{nil, nil})
	}
	same(t, "next", []any{nodes.Next(), nodes.Err()}, []any{false, jp.ErrClosed})
	var errs []error
	errs = append(errs, asks(query, jp.Text("[1]"))...)
	errs = append(errs, asks(other, jp.Text("[1]"))...)
	errs = append(errs, asks(query, document)...)
	errs = append(errs, asks(open, document)...)
	errs = append(errs, asks(new(jp.Query), jp.Text("[1]"))...)
	errs = append(errs, asks(open, new(jp.Document))...)
	for at, err := range errs {
		if !errors.Is(err, jp.ErrClosed) {
			t.Errorf("%d: %v", at, err)
		}
	}
	same(t, "of none", []error{new(jp.Query).Close(), new(jp.Document).Close()}, []error{nil, nil})
	_, err := new(jp.Query).Canonical()
	same(t, "canonical of none", err, jp.ErrClosed)
	// What a closed query tells of itself stays.
	text, err := query.Canonical()
	same(t, "canonical", []any{query.String(), text, err}, []any{"$[0]", "$[0]", nil})
	same(t, "the open one", asks(open, jp.Text("[1]")), make([]error, 5))
}

func TestAnIterationThatIsClosed(t *testing.T) {
	for _, source := range sources(t, "[1,2,3]") {
		nodes := jp.MustCompile("$[*]").Iter(source)
		same(t, "next", nodes.Next(), true)
		same(t, "close", []error{nodes.Close(), nodes.Close()}, []error{nil, nil})
		same(t, "then", []any{nodes.Next(), nodes.Err()}, []any{false, nil})
	}
}
