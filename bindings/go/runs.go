// How a call that may take long ends when its context is done: C sees no context, so what it is asked it is asked again
// and again, with more steps each time.

package jp

import (
	"context"
	"errors"
	"math"
)

const (
	// The steps of a run that its caller makes, which take milliseconds, and never a third of a second.
	firstSteps = 1 << 18
	// The bytes of its answer, which take some hundredths of a second to be written and copied.
	firstBytes = 1 << 24
	// What has more bytes is read by another goroutine from the first run on.
	largestAtOnce = 1 << 18
	// The least steps of a run by another goroutine, for each byte that it reads: a query that goes through a document
	// once mostly makes fewer.
	stepsAByte = 2
	// How many times the steps of a run the next one makes. So all runs before the last make fewer steps together than
	// one and a half times what the query needs.
	growth = 4
)

// A run asks once, within the limit, and gives lines.
type run func(limit Limit) ([]byte, error)

// runs are those over a source, each of which reads so many bytes.
type runs struct {
	most Limit
	size int
	of   func(source Source) run
}

// make gives the lines of the run that no other limit ends than the most that its caller allows. Where the context can't
// be done that is the first.
func (r runs) make(ctx context.Context, source Source) ([]byte, error) {
	if ctx.Done() == nil {
		return r.of(source)(r.most)
	}
	if err := ctx.Err(); err != nil {
		return nil, err
	}
	if r.size <= largestAtOnce {
		lines, err := r.of(source)(r.most.atMost(firstSteps, firstBytes))
		if !r.isShort(err) {
			return lines, err
		}
	}
	return r.leave(ctx, r.of(source.own()))
}

// leave makes the runs in another goroutine, which is left behind when the context is done.
func (r runs) leave(ctx context.Context, run run) ([]byte, error) {
	type answer struct {
		lines []byte
		err   error
	}
	ended := make(chan answer, 1)
	go func() {
		lines, err := r.grow(ctx, run)
		ended <- answer{lines, err}
	}()
	select {
	case <-ctx.Done():
		return nil, ctx.Err()
	case it := <-ended:
		return it.lines, it.err
	}
}

// grow makes runs of ever more steps, until one suffices or nobody waits for them any longer.
func (r runs) grow(ctx context.Context, run run) ([]byte, error) {
	steps := uint64(growth * firstSteps)
	if least := uint64(r.size) * stepsAByte; least > steps {
		steps = least
	}
	for {
		lines, err := run(r.most.atMost(steps, 0))
		if !r.isShort(err) {
			return lines, err
		}
		if err := ctx.Err(); err != nil {
			return nil, err
		}
		if steps > math.MaxUint64/growth {
			steps = math.MaxUint64 / growth
		}
		steps *= growth
	}
}

// isShort tells whether a run ended for its own limit, and not for its caller's.
func (r runs) isShort(err error) bool {
	var beyond *LimitError
	if !errors.As(err, &beyond) {
		return false
	}
	switch beyond.Err {
	case ErrStepsUsedUp:
		return beyond.Limit != r.most.Steps
	case ErrTooManyBytes:
		return beyond.Limit != r.most.Bytes
	}
	return false
}

// atMost gives the limit with no more steps and bytes than these, where 0 is no limit.
func (l Limit) atMost(steps, bytes uint64) Limit {
	return Limit{less(l.Steps, steps), l.Nodes, less(l.Bytes, bytes)}
}

func less(one, other uint64) uint64 {
	if one == 0 || (other != 0 && other < one) {
		return other
	}
	return one
}
