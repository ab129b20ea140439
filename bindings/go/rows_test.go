// The rows of bindings/rows.jsonl, by each way to ask: of a text, of a document that is kept, of many queries, one node
// after another, and until a context is done. Or those of the file that JP_ROWS names, as `bindings/compare --answers`
// prints them.

package jp_test

import (
	"bufio"
	"context"
	"encoding/hex"
	"encoding/json"
	"errors"
	"fmt"
	"os"
	"reflect"
	"testing"

	jp "jsonpath-jp"
)

// A row is what bindings/rows.py says: its fields by their names.
type row map[string]any

// What is asked by a row; an error of a query does not tell the name of its reason.
var asked = map[string]bool{"from": true, "profile": true, "query": true, "document": true, "bytes": true, "not": true}

// The options of each profile.
var profiles = map[string]jp.Options{
	"Standard":        {Numbers: jp.Whole},
	"Extended":        {Extended: true, Numbers: jp.Whole},
	"Decimal":         {},
	"ExtendedDecimal": {Extended: true},
}

func TestEachRow(t *testing.T) {
	head, rows := readRows(t)
	ran := 0
	for _, row := range rows {
		if not, _ := row["not"].(map[string]any); not["go"] != nil {
			continue
		}
		if _, is := profiles[row["profile"].(string)]; !is {
			t.Fatalf("no profile: %v", row)
		}
		for way, given := range answers(row) {
			differs(t, row, way, given)
		}
		ran++
	}
	if head["rows"] != float64(len(rows)) {
		t.Fatalf("%d rows, and the head says %v", len(rows), head["rows"])
	}
	fmt.Printf("%d rows by Go, %d not\n", ran, len(rows)-ran)
}

// differs tells where what is given is other than a row says.
func differs(t *testing.T, row row, way string, given map[string]any) {
	for name, expected := range row {
		isLeft := asked[name] || (name == "reason" && row["refused"] == "Query")
		if !isLeft && !reflect.DeepEqual(given[name], expected) {
			t.Errorf("%v by way of %s: %s is %v", row, way, name, given[name])
		}
	}
}

// readRows gives the head of the file and the rows behind it.
func readRows(t *testing.T) (head row, rows []row) {
	path := os.Getenv("JP_ROWS")
	if path == "" {
		path = "../rows.jsonl"
	}
	file, err := os.Open(path)
	if err != nil {
		t.Fatal(err)
	}
	defer file.Close()
	lines := json.NewDecoder(bufio.NewReader(file))
	if err := lines.Decode(&head); err != nil {
		t.Fatal(err)
	}
	for lines.More() {
		var next row
		if err := lines.Decode(&next); err != nil {
			t.Fatal(err)
		}
		rows = append(rows, next)
	}
	return head, rows
}

// documentOf gives the bytes of a row's document as a text, and whether it has one.
func documentOf(row row) (string, bool) {
	if digits, is := row["bytes"].(string); is {
		bytes, err := hex.DecodeString(digits)
		return string(bytes), err == nil
	}
	document, is := row["document"].(string)
	return document, is
}

// answers gives what each way to ask gives, in the fields of a row.
func answers(row row) map[string]map[string]any {
	text, options := row["query"].(string), profiles[row["profile"].(string)]
	told := map[string]map[string]any{}
	document, is := documentOf(row)
	if is {
		many := jp.Queries{Texts: []string{text, text}, Extended: options.Extended, Numbers: options.Numbers}
		for at, answer := range many.Find(jp.Text(document)) {
			told[fmt.Sprint("many queries, at ", at)] = ofNodes(answer.Nodes, answer.Err)
		}
	}
	query, err := jp.CompileWith(text, options)
	switch {
	case err != nil:
		told["a query"] = ofFault(err)
	case is:
		ofDocument(told, query, document)
	default:
		canonical, err := query.Canonical()
		told["a canonical text"] = map[string]any{"canonical": canonical}
		if err != nil {
			told["a canonical text"] = ofFault(err)
		}
	}
	return told
}

// ofDocument adds what each way to ask a query of a document gives.
func ofDocument(told map[string]map[string]any, query *jp.Query, document string) {
	ctx, cancel := context.WithCancel(context.Background())
	defer cancel()
	text := jp.Text(document)
	told["a text"] = ofNodes(query.Find(text))
	told["a context"] = ofNodes(query.FindContext(ctx, text))
	told["one after another"] = ofEach(query.Iter(text))
	told["the first of a text"] = ofFirst(query, text, told["a text"])
	kept, err := jp.NewDocumentWith([]byte(document), query.Numbers())
	if err != nil {
		told["a document"] = ofFault(err)
		return
	}
	defer kept.Close()
	told["a document"] = ofNodes(query.Find(kept))
	told["each of a document"] = ofEach(query.IterContext(ctx, kept))
	told["the first of a document"] = ofFirst(query, kept, told["a text"])
}

func ofNodes(nodes []jp.Node, err error) map[string]any {
	if err != nil {
		return ofFault(err)
	}
	paths, values := []any{}, []any{}
	for _, node := range nodes {
		paths, values = append(paths, node.Path), append(values, string(node.Value))
	}
	return map[string]any{"paths": paths, "values": values}
}

func ofFault(err error) map[string]any {
	var query *jp.QueryError
	var document *jp.DocumentError
	switch {
	case errors.As(err, &query):
		return map[string]any{
			"refused": "Query", "kind": string(query.Kind), "place": float64(query.Place), "sentence": query.Sentence,
			"suggestion": query.Suggestion,
		}
	case errors.As(err, &document):
		return map[string]any{
			"refused": "Document", "kind": string(document.Kind), "place": float64(document.Offset),
			"line": float64(document.Line), "column": float64(document.Column), "at": document.Path,
			"reason": document.Reason, "sentence": document.Sentence,
		}
	}
	return map[string]any{"refused": err.Error()}
}

func ofEach(nodes *jp.Iter) map[string]any {
	var given []jp.Node
	for nodes.Next() {
		given = append(given, nodes.Node())
	}
	return ofNodes(given, nodes.Err())
}

// ofFirst gives what is expected, where the first node and whether there is one are those of that.
func ofFirst(query *jp.Query, source jp.Source, expected map[string]any) map[string]any {
	node, is, err := query.First(source)
	exists, existsErr := query.Exists(source)
	if err != nil && reflect.DeepEqual(err, existsErr) {
		return ofFault(err)
	}
	paths, _ := expected["paths"].([]any)
	values, _ := expected["values"].([]any)
	isNone := len(paths) == 0 && !is && !exists
	isFirst := len(paths) > 0 && is && exists && node.Path == paths[0] && string(node.Value) == values[0]
	if err != nil || existsErr != nil || !(isNone || isFirst) {
		return map[string]any{"refused": fmt.Sprint(node, is, exists, err, existsErr)}
	}
	return expected
}
