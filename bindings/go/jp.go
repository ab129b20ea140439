// Package jp finds values in JSON documents by JSONPath queries (RFC 9535), with the proved engine jp.
//
//	query, err := jp.Compile("$.book[?@.price < 10].title")
//	nodes, err := query.Find(jp.Text(`{"book":[{"title":"Moby Dick","price":8.99}]}`))
//	for _, node := range nodes {
//		fmt.Printf("%s %s\n", node.Path, node.Value) // $['book'][0]['title'] "Moby Dick"
//	}
//
// A query is asked of a [Text], which is the bytes of a JSON text, or of a [Document], which is read once for many
// queries. A node has its normalized path and its value, a compact JSON text. Numbers are exact [Decimal] ones, of which
// none is rounded, or [Whole] ones of 64 bits where [Options] ask for these; [Node.Decode] makes no float64 of them.
//
// Queries and documents may be used from any goroutines at once. Calls over one [Document] take turns. All that a call
// needs of stack it has, whatever the thread is on which Go makes it.
//
// The engine is proved: that it accepts exactly the queries and documents that its definitions say, and that its answers
// are the nodelists of RFC 9535. This package, which calls it through C, is only tested.
package jp

import "fmt"

//go:generate ../build --unproved

// Version tells the version of the engine, as "0.1.0".
func Version() string {
	number := version()
	return fmt.Sprintf("%d.%d.%d", number>>16, number>>8&255, number&255)
}
