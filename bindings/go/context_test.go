// Calls that end when their context is done, and programs that end by Ctrl-C.

package jp_test

import (
	"context"
	"errors"
	"os"
	"os/exec"
	"os/signal"
	"strings"
	"syscall"
	"testing"
	"time"

	jp "jsonpath-jp"
)

// A query that takes years over a small document.
func years() (*jp.Query, string) {
	return jp.MustCompile("$" + strings.Repeat("..*", 20) + ".x"), strings.Repeat("[", 100) + strings.Repeat("]", 100)
}

// A call that takes so little does not wait for what it left behind.
const soon = time.Second

// processor tells how much of the processor this process has taken. Another clock would go by what else is at work.
func processor(t *testing.T) time.Duration {
	t.Helper()
	var usage syscall.Rusage
	same(t, "no error", syscall.Getrusage(syscall.RUSAGE_SELF, &usage), nil)
	return time.Duration(usage.Utime.Nano() + usage.Stime.Nano())
}

func TestContextsThatAreDone(t *testing.T) {
	query, text := years()
	long := "[" + strings.Repeat(`"a",`, 100_000) + text + "]"
	for _, source := range append(sources(t, text), sources(t, long)...) {
		for what, call := range map[string]func(context.Context) error{
			"find":   func(ctx context.Context) error { _, err := query.FindContext(ctx, source); return err },
			"first":  func(ctx context.Context) error { _, _, err := query.FirstContext(ctx, source); return err },
			"exists": func(ctx context.Context) error { _, err := query.ExistsContext(ctx, source); return err },
			"iter": func(ctx context.Context) error {
				nodes := query.IterContext(ctx, source)
				defer nodes.Close()
				same(t, "next", nodes.Next(), false)
				return nodes.Err()
			},
		} {
			ctx, cancel := context.WithTimeout(context.Background(), 50*time.Millisecond)
			for _, how := range []string{"meanwhile", "before"} {
				start := processor(t)
				err := call(ctx)
				if took := processor(t) - start; !errors.Is(err, context.DeadlineExceeded) || took > soon {
					t.Errorf("%s, where the context is done %s: %v after %v", what, how, err, took)
				}
			}
			cancel()
		}
	}
}

// What is left behind ends, and then others are answered.
func TestWhatIsLeftBehindEnds(t *testing.T) {
	query, text := years()
	document := sources(t, text)[1]
	ctx, cancel := context.WithTimeout(context.Background(), 50*time.Millisecond)
	defer cancel()
	_, err := query.FindContext(ctx, document)
	same(t, "error", err, context.DeadlineExceeded)
	// Whoever waits for the document may end, too.
	_, err = jp.MustCompile("$[0]").FindContext(ctx, document)
	same(t, "error", err, context.DeadlineExceeded)
	is, err := jp.MustCompile("$[0]").Exists(document)
	same(t, "others", []any{is, err}, []any{true, nil})
}

// The bytes of a text are the caller's again when the call has returned, whatever it left behind: who reads them from
// then on ends the process.
func TestATextIsNotReadLater(t *testing.T) {
	query := jp.MustCompile("$" + strings.Repeat("..*", 8) + "[?@!='b']")
	for _, count := range []int{60, 100_000} {
		text := "[" + strings.Repeat(`"a",`, count) + strings.Repeat("[", 100) + `"c"` + strings.Repeat("]", 100) + "]"
		own, err := syscall.Mmap(-1, 0, len(text), syscall.PROT_READ|syscall.PROT_WRITE, syscall.MAP_ANON|syscall.MAP_PRIVATE)
		same(t, "no error", err, nil)
		copy(own, text)
		ctx, cancel := context.WithTimeout(context.Background(), 300*time.Millisecond)
		_, err = query.FindContext(ctx, jp.Text(own))
		same(t, "error", err, context.DeadlineExceeded)
		same(t, "no error", syscall.Munmap(own), nil)
		cancel()
		time.Sleep(soon / 2)
	}
}

// More steps than the first runs have, over a short text and one that is read by another goroutine, also where the
// answer is longer than that of a first run.
func TestAnswersOfManyRuns(t *testing.T) {
	ctx, cancel := context.WithCancel(context.Background())
	defer cancel()
	for _, row := range []struct{ query, text string }{
		{"$..[?@>count($..*)]", "[" + strings.Repeat("[", 60) + strings.Repeat("]", 60) + strings.Repeat(",5", 900) + "]"},
		{"$[?@..[?@..[?@<1]]]", "[" + strings.Repeat("[[0]],", 100_000) + "[[0]]]"},
		{"$[" + strings.Repeat("0,", 2000) + "0]", `["` + strings.Repeat("a", 20_000) + `"]`},
	} {
		query := jp.MustCompile(row.query)
		for _, source := range sources(t, row.text) {
			expected, err := query.Find(source)
			same(t, "no error", err, nil)
			given, err := query.FindContext(ctx, source)
			same(t, "no error", err, nil)
			same(t, "nodes", given, expected)
			each := query.IterContext(ctx, source)
			count := 0
			for ; each.Next(); count++ {
				same(t, "node", each.Node(), expected[count])
			}
			same(t, "one after another", []any{count, each.Err()}, []any{len(expected), nil})
		}
	}
}

// The limit of the caller, and not that of a run, is told.
func TestLimitsOfManyRuns(t *testing.T) {
	ctx, cancel := context.WithCancel(context.Background())
	defer cancel()
	query, text := years()
	for _, steps := range []uint64{1, 1 << 18, 1<<18 + 1, 1 << 20, 3_000_000} {
		for _, source := range sources(t, text) {
			_, err := query.WithLimit(jp.Limit{Steps: steps}).FindContext(ctx, source)
			same(t, "steps", beyond(t, "steps", err, jp.ErrStepsUsedUp), steps)
		}
	}
	long := `["` + strings.Repeat("a", 20_000) + `"]`
	for _, most := range []uint64{1, 1 << 24, 1<<24 + 1} {
		for _, source := range sources(t, long) {
			query := jp.MustCompile("$[" + strings.Repeat("0,", 2000) + "0]").WithLimit(jp.Limit{Bytes: most})
			_, err := query.FindContext(ctx, source)
			same(t, "bytes", beyond(t, "bytes", err, jp.ErrTooManyBytes), most)
		}
	}
}

// TestCtrlC interrupts programs in the middle of a call: one whose call has no context ends by the signal, and one whose
// context the signal ends tells its error.
func TestCtrlC(t *testing.T) {
	query, text := years()
	switch os.Getenv("JP_INTERRUPTED") {
	case "call":
		os.Stdout.WriteString("asks\n")
		query.Find(jp.Text(text))
		return
	case "context":
		ctx, stop := signal.NotifyContext(context.Background(), os.Interrupt)
		defer stop()
		os.Stdout.WriteString("asks\n")
		if _, err := query.FindContext(ctx, jp.Text(text)); err != context.Canceled {
			t.Fatal(err)
		}
		return
	}
	// In the background of a shell the signal is ignored, and so it would be by the children of who does not ask for it.
	signal.Notify(make(chan os.Signal, 1), os.Interrupt)
	defer signal.Reset(os.Interrupt)
	for how, expected := range map[string]string{"call": "signal: interrupt", "context": "<nil>"} {
		limit, cancel := context.WithTimeout(context.Background(), time.Minute)
		defer cancel()
		child := exec.CommandContext(limit, os.Args[0], "-test.run", "^TestCtrlC$")
		child.Env = append(os.Environ(), "JP_INTERRUPTED="+how)
		said, err := child.StdoutPipe()
		same(t, "no error", err, nil)
		same(t, "no error", child.Start(), nil)
		said.Read(make([]byte, 5))
		time.Sleep(300 * time.Millisecond)
		same(t, "no error", child.Process.Signal(os.Interrupt), nil)
		ended := "<nil>"
		if err := child.Wait(); err != nil {
			ended = err.Error()
		}
		same(t, how, ended, expected)
	}
}
