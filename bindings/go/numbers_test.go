// Numbers: which a query and a document have, what values they give, and what is refused. Expected values are by hand:
// texts by RFC 8785, section 3.2.2.3, and others by arithmetic or encoding/json.

package jp_test

import (
	"context"
	"encoding/json"
	"errors"
	"math/big"
	"strings"
	"testing"

	jp "jsonpath-jp"
)

// A number of 39 digits, which is no decimal, and no whole number of 64 bits.
const tooMuch = "123456789012345678901234567890123456789"

// RFC 9535, Figure 1.
const store = `{"store": {
	"book": [
		{"category": "reference", "author": "Nigel Rees", "title": "Sayings of the Century", "price": 8.95},
		{"category": "fiction", "author": "Evelyn Waugh", "title": "Sword of Honour", "price": 12.99},
		{"category": "fiction", "author": "Herman Melville", "title": "Moby Dick",
			"isbn": "0-553-21311-3", "price": 8.99},
		{"category": "fiction", "author": "J. R. R. Tolkien", "title": "The Lord of the Rings",
			"isbn": "0-395-19395-8", "price": 22.99}
	],
	"bicycle": {"color": "red", "price": 399}
}}`

// valuesOf gives the values of a query by each way to ask for all nodes, or ends the test.
func valuesOf(t *testing.T, query *jp.Query, text string) [][]string {
	t.Helper()
	document, err := jp.NewDocumentWith([]byte(text), query.Numbers())
	if err != nil {
		t.Fatal(err)
	}
	defer document.Close()
	var ways [][]string
	for _, source := range []jp.Source{jp.Text(text), document} {
		nodes, err := query.Find(source)
		same(t, "no error", err, nil)
		each := query.Iter(source)
		var found []string
		for each.Next() {
			found = append(found, string(each.Node().Value))
		}
		same(t, "no error", each.Err(), nil)
		ways = append(ways, texts(nodes), found)
	}
	many := jp.Queries{Texts: []string{query.String()}, Extended: query.Extended(), Numbers: query.Numbers()}
	answer := many.Find(jp.Text(text))[0]
	same(t, "no error", answer.Err, nil)
	return append(ways, texts(answer.Nodes))
}

func texts(nodes []jp.Node) []string {
	var values []string
	for _, node := range nodes {
		values = append(values, string(node.Value))
	}
	return values
}

func TestDecimalsAreTheDefault(t *testing.T) {
	query := jp.MustCompile("$..book[?@.price<10].title")
	same(t, "numbers", query.Numbers(), jp.Decimal)
	for _, values := range valuesOf(t, query, store) {
		same(t, "titles", values, []string{`"Sayings of the Century"`, `"Moby Dick"`})
	}
	whole, err := jp.CompileWith(query.String(), jp.Options{Numbers: jp.Whole})
	same(t, "no error", err, nil)
	same(t, "numbers", whole.Numbers(), jp.Whole)
	_, err = whole.Find(jp.Text(store))
	refused := err.(*jp.DocumentError)
	same(t, "refused", []any{refused.Kind, refused.Path}, []any{jp.DocumentNotWhole, "$['store']['book'][0]['price']"})
	_, kept := jp.NewDocumentWith([]byte(store), jp.Whole)
	many := jp.Queries{Texts: []string{query.String()}, Numbers: jp.Whole}.Find(jp.Text(store))
	each := whole.Iter(jp.Text(store))
	same(t, "next", each.Next(), false)
	for _, err := range []error{kept, many[0].Err, each.Err()} {
		same(t, "by each way", err, refused)
	}
}

func TestFunctionsAndNumbersAreChosenApart(t *testing.T) {
	const text = "$[?count(distinct(@['a','a']))==1 && @.a<8.95]"
	query, err := jp.CompileExtended(text)
	same(t, "no error", err, nil)
	same(t, "options", []any{query.Extended(), query.Numbers()}, []any{true, jp.Decimal})
	for _, values := range valuesOf(t, query, `[{"a":8.94},{"a":8.95}]`) {
		same(t, "values", values, []string{`{"a":8.94}`})
	}
	for _, row := range []struct {
		text    string
		options jp.Options
		kind    jp.QueryKind
		place   int
	}{
		{text, jp.Options{}, jp.QueryUnknownFunction, strings.Index(text, "distinct")},
		{text, jp.Options{Numbers: jp.Whole}, jp.QueryUnknownFunction, strings.Index(text, "distinct")},
		{text, jp.Options{Extended: true, Numbers: jp.Whole}, jp.QueryNotWhole, strings.Index(text, "8.95")},
		{"$[?@<" + tooMuch + "]", jp.Options{}, jp.QueryNumberRange, 5},
	} {
		_, err := jp.CompileWith(row.text, row.options)
		refused := err.(*jp.QueryError)
		same(t, row.text, []any{refused.Kind, refused.Place}, []any{row.kind, row.place})
		if refused.Sentence == "" || !strings.Contains(refused.Explanation(), refused.Sentence) {
			t.Fatalf("%s: %q", row.text, refused.Explanation())
		}
	}
	canonical, err := jp.MustCompile("$[?@==8.950]").Canonical()
	same(t, "canonical", []any{canonical, err}, []any{"$[?@==8.95]", nil})
}

func TestADocumentOfOtherNumbers(t *testing.T) {
	for read, asked := range map[jp.Numbers]jp.Numbers{jp.Whole: jp.Decimal, jp.Decimal: jp.Whole} {
		document, err := jp.NewDocumentWith([]byte("[1,2]"), read)
		same(t, "no error", err, nil)
		same(t, "numbers", document.Numbers(), read)
		for _, extended := range []bool{false, true} {
			query, _ := jp.CompileWith("$[*]", jp.Options{Extended: extended, Numbers: asked})
			for at, err := range asks(query, document) {
				if !errors.Is(err, jp.ErrOtherNumbers) {
					t.Errorf("%d: %v", at, err)
				}
				same(t, "text", err.Error(), "other numbers: the document was read with "+read.String()+", which the query "+
					"has not: read one of them with the numbers of the other, by NewDocumentWith or CompileWith")
			}
			// Both are kept, and asked of what has the same numbers.
			other, _ := jp.CompileWith("$[*]", jp.Options{Numbers: read})
			same(t, "the document", asks(other, document), make([]error, 5))
			same(t, "the query", asks(query, jp.Text("[1,2]")), make([]error, 5))
		}
		document.Close()
	}
	same(t, "names", []string{jp.Decimal.String(), jp.Whole.String()}, []string{"decimals", "whole numbers"})
}

func TestDecimalsAreExact(t *testing.T) {
	for written, text := range map[string]string{
		"8.950": "8.95", "-0.10": "-0.1", "1.0": "1", "-0.0": "0", "0e7": "0", "1e2": "100", "-25e-1": "-2.5",
		"1e20": "100000000000000000000", "1e21": "1e+21", "1e400": "1e+400", "-1e-400": "-1e-400", "0.0000001": "1e-7",
		"0.000001": "0.000001", "9007199254740993.5": "9007199254740993.5", "18446744073709551616": "18446744073709551616",
		"12345678901234567890123456789012345678": "1.2345678901234567890123456789012345678e+37",
	} {
		for _, values := range valuesOf(t, jp.MustCompile("$[0]"), "["+written+"]") {
			same(t, written, values, []string{text})
		}
		node, _, err := jp.MustCompile("$[0]").First(jp.Text("[" + written + "]"))
		same(t, "no error", err, nil)
		var value any
		same(t, "no error", node.Decode(&value), nil)
		same(t, "any", value, json.Number(text))
		given, _ := new(big.Rat).SetString(text)
		meant, _ := new(big.Rat).SetString(written)
		same(t, written, given.Cmp(meant), 0)
	}
}

func TestDecimalsOfGo(t *testing.T) {
	node, _, _ := jp.MustCompile("$").First(jp.Text(`{"Price":8.950,"Count":1e2,"Large":1e20,"Rate":1e-7}`))
	var priced struct {
		Price, Rate float64
		Count       int
		Large       *big.Int
	}
	same(t, "no error", node.Decode(&priced), nil)
	large := new(big.Int).Exp(big.NewInt(10), big.NewInt(20), nil)
	same(t, "values", []any{priced.Price, priced.Rate, priced.Count, priced.Large}, []any{8.95, 1e-7, 100, large})
	for _, text := range []string{"1e400", "-1e400"} {
		node, _, _ := jp.MustCompile("$").First(jp.Text(text))
		var double float64
		if node.Decode(&double) == nil {
			t.Fatalf("%s is no float64", text)
		}
	}
	var whole int
	node, _, _ = jp.MustCompile("$").First(jp.Text("8.95"))
	if node.Decode(&whole) == nil {
		t.Fatal("8.95 is no int")
	}
}

func TestNumbersThatAreNoJSON(t *testing.T) {
	for _, text := range []string{"NaN", "Infinity", "-Infinity", ".5", "1.", "+1", "01", "0x1", "1e", "-"} {
		for _, numbers := range []jp.Numbers{jp.Decimal, jp.Whole} {
			_, err := jp.NewDocumentWith([]byte("["+text+"]"), numbers)
			refused := err.(*jp.DocumentError)
			same(t, text, []any{refused.Kind, refused.Sentence != "", refused.Line}, []any{jp.DocumentNotJson, true, 1})
		}
	}
}

// $[0], a tab, 1.5 and a newline are nine bytes, and steps are those of whole numbers.
func TestLimitsWithDecimals(t *testing.T) {
	for _, row := range []struct {
		text  string
		limit jp.Limit
		kind  error
		most  uint64
	}{
		{"$[*]", jp.Limit{Nodes: 3, Bytes: 27}, nil, 0},
		{"$[*]", jp.Limit{Bytes: 26}, jp.ErrTooManyBytes, 26},
		{"$[*]", jp.Limit{Nodes: 2}, jp.ErrTooManyNodes, 2},
		{"$[?@==2.5]", jp.Limit{Steps: 11}, nil, 0},
		{"$[?@==2.5]", jp.Limit{Steps: 10}, jp.ErrStepsUsedUp, 10},
	} {
		for _, err := range ways(t, row.text, row.limit, "[1.5,2.5,3.5]") {
			if row.kind == nil {
				same(t, row.text, err, nil)
			} else {
				same(t, row.text, beyond(t, row.text, err, row.kind), row.most)
			}
		}
	}
}

func TestDecimalsFromManyGoroutines(t *testing.T) {
	query, each := jp.MustCompile("$[?@<8.95]"), sources(t, "[8.94,1e-7,-8.95,8.95,1e400]")
	atOnce(16, 200, func(at int) {
		nodes, err := query.FindContext(context.Background(), each[at%2])
		if err != nil || strings.Join(texts(nodes), " ") != "8.94 1e-7 -8.95" {
			t.Error(nodes, err)
		}
	})
}
