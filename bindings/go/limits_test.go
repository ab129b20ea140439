// The limits of steps, nodes and bytes. Expected numbers are by hand: of steps one for each value that is offered and
// for the end, a segment's selectors and two more at each value that is gone into, and each comparison; of bytes those
// of the lines, where `$[0]`, a tab, 1 and a newline are seven.

package jp_test

import (
	"context"
	"errors"
	"strings"
	"testing"

	jp "jsonpath-jp"
)

// beyond gives the limit that an error tells of, or ends the test.
func beyond(t *testing.T, what string, err, kind error) uint64 {
	t.Helper()
	var fault *jp.LimitError
	if !errors.As(err, &fault) || !errors.Is(err, kind) {
		t.Fatalf("%s: %v", what, err)
	}
	return fault.Limit
}

// ways gives the error of a query within a limit by each way to ask for all nodes.
func ways(t *testing.T, text string, limit jp.Limit, document string) []error {
	t.Helper()
	ctx, cancel := context.WithCancel(context.Background())
	defer cancel()
	var errs []error
	for _, source := range sources(t, document) {
		_, err := jp.MustCompile(text).WithLimit(limit).Find(source)
		_, within := jp.MustCompile(text).WithLimit(limit).FindContext(ctx, source)
		errs = append(errs, err, within)
	}
	many := jp.Queries{Texts: []string{text, "$[0"}, Limit: limit}.Find(jp.Text(document))
	return append(errs, many[0].Err)
}

func TestStepsThatSufficeAndOneLess(t *testing.T) {
	for _, row := range []struct {
		text          string
		needed, first uint64
	}{{"$[*]", 7, 5}, {"$..*", 9, 5}, {"$[?@==2]", 9, 8}} {
		for _, err := range ways(t, row.text, jp.Limit{Steps: row.needed}, "[1,2]") {
			same(t, row.text, err, nil)
		}
		for _, err := range ways(t, row.text, jp.Limit{Steps: row.needed - 1}, "[1,2]") {
			same(t, row.text, beyond(t, row.text, err, jp.ErrStepsUsedUp), row.needed-1)
		}
		for _, source := range sources(t, "[1,2]") {
			is, err := jp.MustCompile(row.text).WithLimit(jp.Limit{Steps: row.first}).Exists(source)
			same(t, row.text, []any{is, err}, []any{true, nil})
			_, err = jp.MustCompile(row.text).WithLimit(jp.Limit{Steps: row.first - 1}).Exists(source)
			same(t, row.text, beyond(t, row.text, err, jp.ErrStepsUsedUp), row.first-1)
		}
	}
	_, err := jp.MustCompile("$[*]").WithLimit(jp.Limit{Steps: 6}).Find(jp.Text("[1,2]"))
	same(t, "text", err.Error(), "steps used up: the query needs more than 6")
}

// A query that names one location makes no steps over a text, and a few over a document that is kept.
func TestStepsOfALocation(t *testing.T) {
	query := jp.MustCompile("$[1]").WithLimit(jp.Limit{Steps: 1})
	each := sources(t, "[1,2]")
	nodes, err := query.Find(each[0])
	same(t, "of a text", []any{len(nodes), err}, []any{1, nil})
	_, err = query.Find(each[1])
	same(t, "of a document", beyond(t, "$[1]", err, jp.ErrStepsUsedUp), uint64(1))
}

func TestNodesAndBytesThatSufficeAndOneLess(t *testing.T) {
	for _, row := range []struct {
		text         string
		nodes, bytes uint64
		kind         error
		limit        uint64
	}{
		{"$[*]", 3, 21, nil, 0},
		{"$[*]", 3, 20, jp.ErrTooManyBytes, 20},
		{"$[*]", 2, 21, jp.ErrTooManyNodes, 2},
		{"$..[?@>1]", 2, 14, nil, 0},
		{"$..[?@>1]", 2, 13, jp.ErrTooManyBytes, 13},
		{"$..[?@>1]", 1, 14, jp.ErrTooManyNodes, 1},
		{"$[2]", 1, 7, nil, 0},
		{"$[2]", 1, 6, jp.ErrTooManyBytes, 6},
		{"$[*]", 1, 6, jp.ErrTooManyBytes, 6},
		{"$[*]", 1, 7, jp.ErrTooManyNodes, 1},
		{"$[*]", 2, 13, jp.ErrTooManyBytes, 13},
		{"$[*]", 2, 14, jp.ErrTooManyNodes, 2},
	} {
		for _, err := range ways(t, row.text, jp.Limit{Nodes: row.nodes, Bytes: row.bytes}, "[1,2,3]") {
			if row.kind == nil {
				same(t, row.text, err, nil)
			} else {
				same(t, row.text, beyond(t, row.text, err, row.kind), row.limit)
			}
		}
	}
	_, err := jp.MustCompile("$[*]").WithLimit(jp.Limit{Bytes: 9}).Find(jp.Text("[1,2]"))
	same(t, "text", err.Error(), "too many bytes: the answer has more than 9")
}

func TestLimitsOfTheFirst(t *testing.T) {
	for _, source := range sources(t, "[1,2,3]") {
		query := jp.MustCompile("$[*]").WithLimit(jp.Limit{Nodes: 1, Bytes: 7})
		_, is, err := query.First(source)
		same(t, "first", []any{is, err}, []any{true, nil})
		query = query.WithLimit(jp.Limit{Nodes: 1, Bytes: 6})
		_, _, err = query.First(source)
		same(t, "first", beyond(t, "first", err, jp.ErrTooManyBytes), uint64(6))
		is, err = query.WithLimit(jp.Limit{Bytes: 5}).Exists(source)
		same(t, "exists", []any{is, err}, []any{true, nil})
		_, err = query.WithLimit(jp.Limit{Bytes: 4}).Exists(source)
		same(t, "exists", beyond(t, "exists", err, jp.ErrTooManyBytes), uint64(4))
		// Nodes that are looked for one after another are not counted.
		nodes, count := query.Iter(source), 0
		for nodes.Next() {
			count++
		}
		same(t, "one after another", []any{count, nodes.Err()}, []any{3, nil})
	}
}

func TestOneNodeAfterAnother(t *testing.T) {
	query := jp.MustCompile("$[*]")
	for _, size := range []int{0, 1, 2, 3, 4, 6, 7, 8, 100, 5000} {
		text := "[" + strings.TrimSuffix(strings.Repeat("7,", size), ",") + "]"
		expected, err := query.Find(jp.Text(text))
		same(t, "no error", err, nil)
		for _, source := range sources(t, text) {
			var given []jp.Node
			nodes := query.Iter(source)
			for nodes.Next() {
				given = append(given, nodes.Node())
			}
			same(t, "ended", []any{nodes.Err(), nodes.Next(), nodes.Node()}, []any{nil, false, jp.Node{}})
			same(t, "nodes", append([]jp.Node{}, given...), expected)
		}
	}
	var paths []string
	jp.MustCompile("$[0,0]").Iter(jp.Text("[7]")).All()(func(node jp.Node, err error) bool {
		paths = append(paths, node.Path)
		return err == nil
	})
	same(t, "repeats", paths, []string{"$[0]", "$[0]"})
}

func TestTheFirstOfAMillionNodes(t *testing.T) {
	text := jp.Text("[" + strings.Repeat("0,", 999_999) + "0]")
	_, err := jp.MustCompile("$[*]").WithLimit(jp.Limit{Steps: 1_000_000}).Find(text)
	same(t, "all", beyond(t, "all", err, jp.ErrStepsUsedUp), uint64(1_000_000))
	nodes := jp.MustCompile("$[*]").WithLimit(jp.Limit{Steps: 100}).Iter(text)
	count := 0
	for nodes.Next() {
		count++
	}
	// The pages get longer, and each has the whole limit. After an error there is no more.
	same(t, "then", beyond(t, "then", nodes.Err(), jp.ErrStepsUsedUp), uint64(100))
	if count < 15 {
		t.Fatalf("%d nodes", count)
	}
	same(t, "no more", nodes.Next(), false)
	var last error
	jp.MustCompile("$[*]").WithLimit(jp.Limit{Steps: 100}).Iter(text).All()(func(_ jp.Node, err error) bool {
		last = err
		return true
	})
	same(t, "the last", beyond(t, "the last", last, jp.ErrStepsUsedUp), uint64(100))
}
