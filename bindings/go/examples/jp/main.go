// A query over a document, as the program jp does it:
//
//	jp FORM QUERY [--extended] [--decimals] < document
//
// FORM is eval, paths, both, canon or check. What is written, on both outputs, and the status are the ones of
// `jp FORM QUERY`, but for its limits of lengths, its help, and the path of a number that is refused.
package main

import (
	"bufio"
	"errors"
	"fmt"
	"io"
	"os"

	jp "jsonpath-jp"
)

func main() {
	var words []string
	options := jp.Options{Numbers: jp.Whole}
	for _, word := range os.Args[1:] {
		switch word {
		case "--extended":
			options.Extended = true
		case "--decimals":
			options.Numbers = jp.Decimal
		default:
			words = append(words, word)
		}
	}
	if len(words) != 2 {
		fmt.Fprintln(os.Stderr, "usage: jp FORM QUERY [--extended] [--decimals] < document")
		os.Exit(2)
	}
	query, err := jp.CompileWith(words[1], options)
	if err == nil {
		err = write(words[0], query)
	}
	os.Exit(report(err))
}

// write writes what is asked for.
func write(form string, query *jp.Query) error {
	switch form {
	case "canon":
		text, err := query.Canonical()
		if err == nil {
			fmt.Println(text)
		}
		return err
	case "check":
		fmt.Println("accepted")
		return nil
	}
	document, err := io.ReadAll(os.Stdin)
	if err != nil {
		return err
	}
	nodes, err := query.Find(jp.Text(document))
	if err != nil {
		return err
	}
	return writeLines(form, nodes)
}

// writeLines writes the line of each node.
func writeLines(form string, nodes []jp.Node) error {
	out := bufio.NewWriter(os.Stdout)
	for _, node := range nodes {
		switch form {
		case "eval":
			fmt.Fprintf(out, "%s\n", node.Value)
		case "paths":
			fmt.Fprintln(out, node.Path)
		default:
			fmt.Fprintln(out, node)
		}
	}
	return out.Flush()
}

// report says why there is no answer, and gives the status.
func report(err error) int {
	var query *jp.QueryError
	var document *jp.DocumentError
	switch {
	case err == nil:
		return 0
	case errors.As(err, &query):
		fmt.Fprintf(os.Stderr, "query refused: %s at %d\n", query.Kind, query.Place)
		return 1
	case errors.As(err, &document):
		fmt.Fprintf(os.Stderr, "document refused: %s\n", document.Kind)
		return 3
	}
	fmt.Fprintln(os.Stderr, err)
	return 4
}
