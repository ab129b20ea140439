// A node, and what its texts stand for.

package jp

import (
	"bytes"
	"encoding/json"
	"fmt"
	"strings"
)

// The escapes of a JSON Pointer.
var pointerEscapes = strings.NewReplacer("~", "~0", "/", "~1")

// A Node is a location in a document with the value there.
type Node struct {
	// Path is the normalized path (RFC 9535, section 2.7), as $['a'][1].
	Path string `json:"path"`
	// Value is the value as a compact JSON text, with the members of objects sorted by name. Numbers have all their
	// digits, in one spelling for each number (RFC 8785, section 3.2.2.3): 8.950 is 8.95, 1.0 is 1, and 1e400 is 1e+400.
	// The nodes of one answer have their texts in one piece of memory.
	Value json.RawMessage `json:"value"`
}

// String gives the path, a tab, and the value.
func (n Node) String() string {
	return n.Path + "\t" + string(n.Value)
}

// Decode decodes the value as [json.Unmarshal] does, but for numbers: where a number is to be an any it becomes a
// [json.Number], which has all its digits, and no float64, which has not.
func (n Node) Decode(into any) error {
	decoder := json.NewDecoder(bytes.NewReader(n.Value))
	decoder.UseNumber()
	return decoder.Decode(into)
}

// Steps gives the names and indexes of the path, from the document's root on: each is a string or an int.
func (n Node) Steps() []any {
	path := []byte(n.Path)
	name, steps := make([]byte, len(path)), []any{}
	step, at := stepAt(path, name, 0)
	for step != nil {
		steps = append(steps, step)
		step, at = stepAt(path, name, at)
	}
	return steps
}

// Pointer gives the JSON Pointer (RFC 6901) to the node.
func (n Node) Pointer() string {
	var pointer strings.Builder
	for _, step := range n.Steps() {
		pointer.WriteByte('/')
		pointer.WriteString(pointerEscapes.Replace(fmt.Sprint(step)))
	}
	return pointer.String()
}

// nodeOf gives the node of a line without its end, which no one writes from then on.
func nodeOf(line []byte) Node {
	tab := bytes.IndexByte(line, '\t')
	return Node{textOf(line[:tab]), line[tab+1 : len(line) : len(line)]}
}

// nodesOf gives the nodes of lines: each is a path, a tab and a value, of which none has a newline, and the path no tab.
func nodesOf(lines []byte) []Node {
	nodes := make([]Node, 0, bytes.Count(lines, []byte{'\n'}))
	for len(lines) > 0 {
		end := bytes.IndexByte(lines, '\n')
		nodes = append(nodes, nodeOf(lines[:end]))
		lines = lines[end+1:]
	}
	return nodes
}
