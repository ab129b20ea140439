// What users of the package see besides what bindings/rows.jsonl has. Expected values are by hand.

package jp_test

import (
	"encoding/json"
	"errors"
	"fmt"
	"reflect"
	"strings"
	"syscall"
	"testing"

	jp "jsonpath-jp"
)

// same ends the test where two are not the same.
func same(t *testing.T, what string, given, expected any) {
	t.Helper()
	if !reflect.DeepEqual(given, expected) {
		t.Fatalf("%s: %#v, and not %#v", what, given, expected)
	}
}

// sources gives a text, and the document that it is.
func sources(t *testing.T, text string) []jp.Source {
	t.Helper()
	document, err := jp.NewDocument([]byte(text))
	if err != nil {
		t.Fatal(err)
	}
	t.Cleanup(func() { document.Close() })
	return []jp.Source{jp.Text(text), document}
}

func TestNodesAsJSON(t *testing.T) {
	nodes, err := jp.MustCompile("$.a").Find(jp.Text(`{"a":{"b":[1]}}`))
	same(t, "no error", err, nil)
	text, err := json.Marshal(nodes)
	same(t, "no error", err, nil)
	same(t, "as JSON", string(text), `[{"path":"$['a']","value":{"b":[1]}}]`)
	same(t, "as text", fmt.Sprint(nodes[0]), "$['a']\t{\"b\":[1]}")
}

func TestOneValueDoesNotReachIntoAnother(t *testing.T) {
	nodes, _ := jp.MustCompile("$[*]").Find(jp.Text("[1,22,333]"))
	nodes[0].Value[0] = '9'
	nodes[0].Value = append(nodes[0].Value, "000000000000"...)
	same(t, "others", nodes[1].String()+" "+nodes[2].String(), "$[1]\t22 $[2]\t333")
	same(t, "its own", string(nodes[0].Value), "9000000000000")
}

func TestSteps(t *testing.T) {
	document := `{"it's":[{"a\tb\n\u0000\u001f\\":{"é😀":{"":[0,[1]]}}}]}`
	nodes, _ := jp.MustCompile("$..[1][0]").Find(jp.Text(document))
	same(t, "steps", nodes[0].Steps(), []any{"it's", 0, "a\tb\n\x00\x1f\\", "é😀", "", 1, 0})
	root, _, _ := jp.MustCompile("$").First(jp.Text("1"))
	same(t, "steps of the root", root.Steps(), []any{})
	for _, path := range []string{"", "$", "$[", "$['", "$['a", "$[x", "a.b.c", `$['\`, `$['\u00`} {
		jp.Node{Path: path}.Steps()
	}
}

func TestPointers(t *testing.T) {
	// Those of RFC 6901, section 5, and others by its section 3, each behind the normalized path.
	for _, row := range [][2]string{
		{"$", ""}, {"$['foo']", "/foo"}, {"$['foo'][0]", "/foo/0"}, {"$['']", "/"}, {"$['a/b']", "/a~1b"},
		{"$['c%d']", "/c%d"}, {"$['e^f']", "/e^f"}, {"$['g|h']", "/g|h"}, {`$['i\\j']`, `/i\j`}, {`$['k"l']`, `/k"l`},
		{"$[' ']", "/ "}, {"$['m~n']", "/m~0n"}, {"$['~1']['/0']", "/~01/~10"}, {`$['\'']['\n\u0000']`, "/'/\n\x00"},
		{"$['é😀']['0'][10]", "/é😀/0/10"},
	} {
		same(t, row[0], jp.Node{Path: row[0]}.Pointer(), row[1])
	}
	node, _, _ := jp.MustCompile("$..b").First(jp.Text(`{"a/b":[{"b":1}]}`))
	same(t, "the pointer of a node", node.Pointer(), "/a~1b/0/b")
}

func TestLinesThatAreDocuments(t *testing.T) {
	for document, isTold := range map[string]bool{
		"{\"a\":1}\n{\"a\":2}\n": true, "1\r\n\r\n 2": true, "\n[1, 2] \n[3]": true, "1\n]": true,
		"1 2": false, "[1,\n2]\n3": false,
	} {
		_, err := jp.MustCompile("$").Find(jp.Text(document))
		var refused *jp.DocumentError
		if !errors.As(err, &refused) {
			t.Fatalf("%s: %v", document, err)
		}
		same(t, document, refused.Reason, "AfterValue")
		same(t, document, refused.Suggestion != "", isTold)
		same(t, document, strings.Contains(err.Error(), "(JSON Lines)"), isTold)
	}
}

func TestWholeNumbersAreExact(t *testing.T) {
	for _, whole := range []string{
		"0", "9007199254740991", "9007199254740992", "9007199254740993", "-9007199254740993", "1152921504606846977",
		"9223372036854775807", "-9223372036854775808", "18446744073709551615",
	} {
		for _, source := range sources(t, "["+whole+"]") {
			node, _, err := jp.MustCompile("$[0]").First(source)
			same(t, "no error", err, nil)
			same(t, "text", string(node.Value), whole)
			var value any
			same(t, "no error", node.Decode(&value), nil)
			same(t, "any", value, json.Number(whole))
			again, _ := json.Marshal(value)
			same(t, "written again", string(again), whole)
		}
	}
}

func TestNumbersOfGo(t *testing.T) {
	node, _, _ := jp.MustCompile("$").First(jp.Text("[18446744073709551615,-1,300]"))
	var unsigned []uint64
	if node.Decode(&unsigned) == nil {
		t.Fatal("-1 is no uint64")
	}
	var few []int8
	if node.Decode(&few) == nil {
		t.Fatal("300 is no int8")
	}
	var values struct{ A []any }
	node, _, _ = jp.MustCompile("$").First(jp.Text(`{"A":[18446744073709551615,[-9223372036854775808],{"b":"c"},null,true]}`))
	same(t, "no error", node.Decode(&values), nil)
	same(t, "values", values.A, []any{
		json.Number("18446744073709551615"), []any{json.Number("-9223372036854775808")}, map[string]any{"b": "c"}, nil, true,
	})
}

func TestWhatAQueryTellsOfItself(t *testing.T) {
	query := jp.MustCompile("$ .a")
	same(t, "text", query.String(), "$ .a")
	same(t, "extended", query.Extended(), false)
	same(t, "limit", query.Limit(), jp.Limit{})
	text, err := query.Canonical()
	same(t, "canonical", []any{text, err}, []any{"$['a']", nil})
	query, err = jp.CompileExtended("$[?distinct(@.*)]")
	same(t, "no error", err, nil)
	query = query.WithLimit(jp.Limit{Steps: 100})
	same(t, "extended", query.Extended(), true)
	same(t, "limit", query.Limit(), jp.Limit{Steps: 100})
	node, is, err := query.First(jp.Text(`[{"a":0},{}]`))
	same(t, "node", []any{node.Path, is, err}, []any{"$[0]", true, nil})
	long := "$['" + strings.Repeat("a", 5000) + "']"
	text, err = jp.MustCompile(long).Canonical()
	same(t, "a text longer than the first room", []any{text, err}, []any{long, nil})
}

func TestNoFirst(t *testing.T) {
	for _, source := range sources(t, `{"a":[{"a":1},{"a":2}]}`) {
		node, is, err := jp.MustCompile("$..b").First(source)
		same(t, "none", []any{node.Path, node.Value == nil, is, err}, []any{"", true, false, nil})
	}
}

func TestRefusedQueries(t *testing.T) {
	for _, row := range []struct {
		query string
		place int
	}{{"$[?@.é = 1]", 9}, {"$.\xff", 2}} {
		_, err := jp.Compile(row.query)
		var refused *jp.QueryError
		if !errors.As(fmt.Errorf("wrapped: %w", err), &refused) {
			t.Fatalf("%q: %v", row.query, err)
		}
		same(t, row.query, []any{refused.Kind, refused.Place, refused.Query}, []any{jp.QuerySyntax, row.place, row.query})
		answer := jp.Queries{Texts: []string{row.query}}.Find(jp.Text("[]"))[0]
		same(t, row.query, answer, jp.Answer{Err: err})
	}
}

func TestWhatARefusedQueryTells(t *testing.T) {
	_, err := jp.Compile("$[?@.é = 1]")
	refused := err.(*jp.QueryError)
	same(t, "suggestion", refused.Suggestion, "$[?@.é == 1]")
	same(t, "explanation", refused.Explanation(),
		"  $[?@.é = 1]\n          ^\n"+refused.Sentence+"\nTry: $[?@.é == 1]\n")
	same(t, "text", err.Error(), "query refused: Syntax at 9: "+refused.Sentence+" Try: $[?@.é == 1]")
	defer func() {
		same(t, "panic", recover(), "jp: "+err.Error())
	}()
	jp.MustCompile("$[?@.é = 1]")
}

func TestALongPath(t *testing.T) {
	name := strings.Repeat("a", 5000)
	for number, options := range map[string]jp.Options{"1.5": {Numbers: jp.Whole}, tooMuch: {}} {
		query, _ := jp.CompileWith("$", options)
		_, err := query.Find(jp.Text(`{"` + name + `":` + number + `}`))
		same(t, "path", err.(*jp.DocumentError).Path, "$['"+name+"']")
	}
}

func TestWhatARefusedDocumentTells(t *testing.T) {
	for _, row := range []struct {
		text    string
		numbers jp.Numbers
		told    string
	}{
		{"{\"ä\":[1,\n2,]}", jp.Decimal, "document refused: NotJson: line 2, column 3: "},
		{"{\"ä\":[1,\n2,]}", jp.Whole, "document refused: NotJson: line 2, column 3: "},
		{"[2.5]", jp.Whole, "document refused: NotWhole at $[0]: line 1, column 2: "},
		{"[\n 0.5, " + tooMuch + "]", jp.Decimal, "document refused: NumberRange at $[1]: line 2, column 7: "},
	} {
		query, _ := jp.CompileWith("$..b", jp.Options{Numbers: row.numbers})
		_, err := query.Find(jp.Text(row.text))
		same(t, "text", err.Error(), row.told+err.(*jp.DocumentError).Sentence)
		_, kept := jp.NewDocumentWith([]byte(row.text), row.numbers)
		same(t, "kept", kept, err)
	}
}

// A document of so many bytes is not read, so none of this memory is there.
func TestADocumentThatIsTooLarge(t *testing.T) {
	const how = syscall.MAP_ANON | syscall.MAP_PRIVATE | syscall.MAP_NORESERVE
	huge, err := syscall.Mmap(-1, 0, 1<<32, syscall.PROT_NONE, how)
	if err != nil {
		t.Skip("skipped, since there are no 4 GiB of addresses: a document that is too large")
	}
	defer syscall.Munmap(huge)
	_, found := jp.MustCompile("$").Find(jp.Text(huge))
	_, made := jp.NewDocument(huge)
	for _, err := range []error{found, made} {
		same(t, "error", err, &jp.DocumentError{Kind: jp.DocumentTooLarge})
		same(t, "text", err.Error(), "document refused: DocumentTooLarge")
	}
}

func TestManyQueries(t *testing.T) {
	texts := []string{"$.a[*]", "$.a[01]", "$.é", "", "$.b", "$.a"}
	document := jp.Text(`{"a":[1,"` + strings.Repeat("é", 5000) + `"]}`)
	answers := jp.Queries{Texts: texts}.Find(document)
	same(t, "as many", len(answers), len(texts))
	for at, text := range texts {
		query, err := jp.Compile(text)
		expected := jp.Answer{Err: err}
		if err == nil {
			expected.Nodes, expected.Err = query.Find(document)
		}
		same(t, text, answers[at], expected)
	}
	same(t, "none", len(jp.Queries{}.Find(jp.Text("["))), 0)
	answers = jp.Queries{Texts: []string{"$[?distinct(@.*)]"}, Extended: true}.Find(jp.Text("[[1],[]]"))
	same(t, "extended", answers[0].Nodes[0].Path, "$[0]")
	answers = jp.Queries{Texts: []string{"$[01]", "$", "$.a"}}.Find(jp.Text("[1,]"))
	var query *jp.QueryError
	var refused *jp.DocumentError
	same(t, "errors", []bool{errors.As(answers[0].Err, &query), errors.As(answers[1].Err, &refused)}, []bool{true, true})
	same(t, "the same error", answers[2].Err, answers[1].Err)
}

func TestVersion(t *testing.T) {
	same(t, "version", jp.Version(), "0.1.0")
}
