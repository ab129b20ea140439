// Many goroutines at once; and calls on threads with little stack.

package jp_test

import (
	"errors"
	"fmt"
	"os"
	"os/exec"
	"strings"
	"sync"
	"testing"

	jp "jsonpath-jp"
)

// atOnce calls a function in so many goroutines, so often in each.
func atOnce(goroutines, calls int, call func(at int)) {
	var all sync.WaitGroup
	for started := 0; started < goroutines; started++ {
		all.Add(1)
		go func(at int) {
			defer all.Done()
			for made := 0; made < calls; made++ {
				call(at)
			}
		}(started)
	}
	all.Wait()
}

func TestManyGoroutines(t *testing.T) {
	query, each := jp.MustCompile("$[*]"), sources(t, "[1,2,3]")
	atOnce(32, 300, func(at int) {
		source := each[at%2]
		nodes, err := query.Find(source)
		if err != nil || len(nodes) != 3 || nodes[2].String() != "$[2]\t3" {
			t.Error(nodes, err)
		}
		last := 0
		for nodes := query.Iter(source); nodes.Next(); last++ {
			if nodes.Node().Path != fmt.Sprintf("$[%d]", last) {
				t.Error(nodes.Node())
			}
		}
		if last != 3 {
			t.Error(last)
		}
	})
}

func TestClosedMeanwhile(t *testing.T) {
	for round := 0; round < 50; round++ {
		query := jp.MustCompile("$..*")
		document, _ := jp.NewDocument([]byte("[1,[2,[3]]]"))
		atOnce(8, 20, func(at int) {
			if at == 0 {
				document.Close()
			}
			if at == 1 && round%2 == 0 {
				query.Close()
			}
			nodes, err := query.Find(document)
			if !errors.Is(err, jp.ErrClosed) && (err != nil || len(nodes) != 5) {
				t.Error(nodes, err)
			}
		})
	}
}

// The deepest queries and documents, and what each way to ask tells of them.
func deepest() string {
	deep := "$" + strings.Repeat("[?@.a||@&&!@", 128) + strings.Repeat("]", 128)
	nested := strings.Repeat("[", 126) + strings.Repeat("]", 126)
	var told strings.Builder
	for _, row := range [][2]string{
		{"$.a", `{"a":1}`}, {"$[?@<8.95]", "[8.94,1e-7,1e400]"}, {deep, nested}, {strings.Repeat("$[?@", 200), "[1]"}, {"$", nested}, {"$..*", nested},
		{`$[?match(@,"` + strings.Repeat("(", 60) + "a" + strings.Repeat(")", 60) + `")]`, `["a"]`},
	} {
		many := jp.Queries{Texts: []string{row[0]}}.Find(jp.Text(row[1]))[0]
		fmt.Fprintln(&told, many.Nodes, many.Err)
		query, err := jp.Compile(row[0])
		if err != nil {
			fmt.Fprintln(&told, err, err.(*jp.QueryError).Explanation())
			continue
		}
		document, err := jp.NewDocument([]byte(row[1]))
		fmt.Fprintln(&told, err)
		text, err := query.Canonical()
		fmt.Fprintln(&told, text, err)
		for _, source := range []jp.Source{document, jp.Text(row[1])} {
			nodes, err := query.Find(source)
			fmt.Fprintln(&told, nodes, err)
			each := query.Iter(source)
			fmt.Fprintln(&told, each.Next(), each.Node(), each.Err())
		}
		document.Close()
		query.Close()
	}
	return told.String()
}

// TestLittleStack asks the same in processes whose threads have little stack, of which the deepest need 720 KiB.
func TestLittleStack(t *testing.T) {
	if file := os.Getenv("JP_TOLD"); file != "" {
		if err := os.WriteFile(file, []byte(deepest()), 0o600); err != nil {
			t.Fatal(err)
		}
		return
	}
	if _, err := exec.LookPath("sh"); err != nil {
		t.Skip("skipped, since a shell (sh) is not installed: threads with little stack")
	}
	expected := deepest()
	for _, kib := range []string{"128", "256", "512", "1024"} {
		file := t.TempDir() + "/told"
		child := exec.Command("sh", "-c", `ulimit -s "$1" && exec "$0" -test.run '^TestLittleStack$'`, os.Args[0], kib)
		child.Env = append(os.Environ(), "JP_TOLD="+file)
		if said, err := child.CombinedOutput(); err != nil {
			t.Fatalf("%s KiB: %v\n%s", kib, err, said)
		}
		told, err := os.ReadFile(file)
		same(t, kib, []any{string(told), err}, []any{expected, nil})
	}
}
