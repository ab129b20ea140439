// Examples, which the package's documentation shows. What they print is by hand.

package jp_test

import (
	"context"
	"errors"
	"fmt"
	"strings"
	"time"

	jp "jsonpath-jp"
)

func Example() {
	query, err := jp.Compile("$.book[?@.price < 10].title")
	if err != nil {
		fmt.Println(err)
		return
	}
	nodes, err := query.Find(jp.Text(`{"book":[{"title":"Moby Dick","price":8.99},{"title":"Sword of Honour","price":12.99}]}`))
	if err != nil {
		fmt.Println(err)
		return
	}
	for _, node := range nodes {
		fmt.Printf("%s %s\n", node.Path, node.Value)
	}
	// Output: $['book'][0]['title'] "Moby Dick"
}

func ExampleDocument() {
	document, err := jp.NewDocument([]byte(`{"a":[1,2]}`))
	if err != nil {
		fmt.Println(err)
		return
	}
	defer document.Close()
	for _, text := range []string{"$.a[-1]", "$..*"} {
		nodes, err := jp.MustCompile(text).Find(document)
		fmt.Println(nodes, err)
	}
	// Output:
	// [$['a'][1]	2] <nil>
	// [$['a']	[1,2] $['a'][0]	1 $['a'][1]	2] <nil>
}

func ExampleCompileWith() {
	query, err := jp.CompileWith("$[?@.price < 10]", jp.Options{Numbers: jp.Whole})
	if err != nil {
		fmt.Println(err)
		return
	}
	fmt.Println(query.Find(jp.Text(`[{"price":9},{"price":12}]`)))
	_, err = query.Find(jp.Text(`[{"price":8.99}]`))
	fmt.Println(err.(*jp.DocumentError).Kind, err.(*jp.DocumentError).Path)
	// Output:
	// [$[0]	{"price":9}] <nil>
	// NotWhole $[0]['price']
}

func ExampleNode_Decode() {
	node, _, err := jp.MustCompile("$.user").First(jp.Text(`{"user":{"id":9007199254740993,"name":"Ada"}}`))
	if err != nil {
		fmt.Println(err)
		return
	}
	var user struct {
		ID   int64
		Name string
	}
	var value any
	fmt.Println(node.Decode(&user), user)
	fmt.Println(node.Decode(&value), value)
	// Output:
	// <nil> {9007199254740993 Ada}
	// <nil> map[id:9007199254740993 name:Ada]
}

func ExampleNode_Steps() {
	node, _, err := jp.MustCompile("$.*[1]").First(jp.Text(`{"it's":[1,2]}`))
	for _, step := range node.Steps() {
		fmt.Printf("%T %v\n", step, step)
	}
	fmt.Println(node.Path, err)
	// Output:
	// string it's
	// int 1
	// $['it\'s'][1] <nil>
}

func ExampleQueryError() {
	_, err := jp.Compile("$[?@.born=1815]")
	var refused *jp.QueryError
	if errors.As(err, &refused) {
		fmt.Println(refused.Kind, refused.Place, refused.Suggestion)
		fmt.Println(strings.Contains(err.Error(), refused.Sentence))
	}
	// Output:
	// Syntax 10 $[?@.born==1815]
	// true
}

func ExampleDocumentError() {
	_, err := jp.MustCompile("$.a").Find(jp.Text(`{"a": [1,]}`))
	var refused *jp.DocumentError
	if errors.As(err, &refused) {
		fmt.Println(refused.Kind, refused.Line, refused.Column, refused.Reason)
		fmt.Println(strings.Contains(err.Error(), refused.Sentence))
	}
	// Output:
	// NotJson 1 10 TrailingComma
	// true
}

func ExampleQuery_WithLimit() {
	query := jp.MustCompile("$[*]").WithLimit(jp.Limit{Steps: 1_000_000, Nodes: 2, Bytes: 1 << 20})
	_, err := query.Find(jp.Text("[1,2,3]"))
	fmt.Println(errors.Is(err, jp.ErrTooManyNodes), err)
	// Output: true too many nodes: the query selects more than 2
}

func ExampleQuery_FindContext() {
	ctx, cancel := context.WithTimeout(context.Background(), 20*time.Millisecond)
	defer cancel()
	lists := "[[[[[[[[[[[[[[[[[[[[[[[[[[[[[[[[[[[[[[[[]]]]]]]]]]]]]]]]]]]]]]]]]]]]]]]]]]]]]]]]"
	_, err := jp.MustCompile("$..*..*..*..*..*..*..*..*..*..*..x").FindContext(ctx, jp.Text(lists))
	fmt.Println(err)
	// Output: context deadline exceeded
}

func ExampleIter() {
	nodes := jp.MustCompile("$[*].name").Iter(jp.Text(`[{"name":"Ada"},{"name":"Bob"},{"name":"Eve"}]`))
	defer nodes.Close()
	for nodes.Next() {
		fmt.Printf("%s\n", nodes.Node().Value)
		if nodes.Node().Path == "$[1]['name']" {
			break
		}
	}
	fmt.Println(nodes.Err())
	// Output:
	// "Ada"
	// "Bob"
	// <nil>
}

func ExampleIter_All() {
	// From Go 1.23 on: for node, err := range nodes.All() { .. }
	nodes := jp.MustCompile("$[*]").Iter(jp.Text("[1,2]"))
	nodes.All()(func(node jp.Node, err error) bool {
		fmt.Println(node, err)
		return true
	})
	// Output:
	// $[0]	1 <nil>
	// $[1]	2 <nil>
}

func ExampleQueries() {
	queries := jp.Queries{Texts: []string{"$.a[0]", "$.a[01]", "$.b"}}
	for _, answer := range queries.Find(jp.Text(`{"a":[1,2]}`)) {
		fmt.Println(answer.Nodes, answer.Err == nil)
	}
	// Output:
	// [$['a'][0]	1] true
	// [] false
	// [] true
}
