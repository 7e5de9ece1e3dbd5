package antientropy_test

import (
	"context"
	"errors"
	"testing"
	"time"

	antientropy "example.org/antientropy/go"
)

// A countdown is a context that is done once its error was asked for a number of times.
type countdown struct {
	context.Context
	left int
}

func (c *countdown) Err() error {
	if c.left == 0 {
		return context.Canceled
	}
	c.left--
	return nil
}

// nothingIsLeft checks that a replica keeps no session and no moment.
func nothingIsLeft(t *testing.T, r *antientropy.Replica) {
	t.Helper()
	noSession(t, r)
	_, err := r.Moment()
	refused(t, err, antientropy.ErrDirty)
	equal(t, must(r.HashMoment(0)), uint64(0))
}

// If its context is done before, a sync opens no session, and hashes nothing.
func TestASyncThatIsCancelledBefore(t *testing.T) {
	r, snapshot := filled(1), must(filled(2).Snapshot())
	ctx, cancel := context.WithCancel(context.Background())
	cancel()
	unchanged(t, r, context.Canceled, func() error {
		_, err := r.Sync(ctx, 9, must(snapshot.Offer(1)), func(context.Context, [][]byte) ([][]byte, error) {
			panic("a sync that was cancelled reaches its partner")
		})
		return err
	})
}

// A sync that is cancelled while its rows are hashed, or between two asks, leaves nothing in progress, and keeps the
// versions that it took.
func TestASyncThatIsCancelledAtAnyStep(t *testing.T) {
	snapshot, reached := must(filled(300).Snapshot()), 0
	offer := must(snapshot.Offer(1))
	for steps := 0; ; steps++ {
		r := filled(3)
		ctx := &countdown{context.Background(), steps}
		synced, err := r.Sync(ctx, 9, offer, func(ctx context.Context, asks [][]byte) ([][]byte, error) {
			reached++
			return reachOf(snapshot, 1)(ctx, asks)
		})
		nothingIsLeft(t, r)
		equal(t, must(r.Stats()).Entries, 3+synced.Accepted)
		if err == nil {
			equal(t, []any{synced.Finished(), synced.Accepted}, []any{true, uint64(297)})
			equal(t, []bool{steps > 20, reached > 5}, []bool{true, true})
			return
		}
		refused(t, err, context.Canceled)
		equal(t, synced.Finished(), false)
	}
}

// A reach that is cancelled ends the sync, whichever error it returns. Answers that it returns are taken.
func TestASyncThatIsCancelledInAReach(t *testing.T) {
	lost := errors.New("the link is lost")
	for _, returned := range []error{context.Canceled, lost, nil} {
		r, snapshot := newReplica(), must(filled(300).Snapshot())
		ctx, cancel := context.WithCancel(context.Background())
		rounds := 0
		synced, err := r.Sync(ctx, 9, must(snapshot.Offer(1)), func(ctx context.Context, asks [][]byte) ([][]byte, error) {
			if rounds++; rounds < 3 {
				return reachOf(snapshot, 1)(ctx, asks)
			}
			cancel()
			<-ctx.Done()
			answers, _ := reachOf(snapshot, 1)(ctx, asks[:1])
			return answers, returned
		})
		refused(t, err, context.Canceled)
		equal(t, []any{rounds, synced.Report}, []any{3, antientropy.ReportWaiting})
		nothingIsLeft(t, r)
	}
}

// A deadline ends a sync whose partner is silent.
func TestASyncWithADeadline(t *testing.T) {
	r, snapshot := newReplica(), must(filled(300).Snapshot())
	ctx, cancel := context.WithTimeout(context.Background(), 50*time.Millisecond)
	defer cancel()
	silent := func(ctx context.Context, _ [][]byte) ([][]byte, error) {
		<-ctx.Done()
		return nil, ctx.Err()
	}
	_, err := r.SyncWithin(ctx, antientropy.DefaultBounds(), 9, must(snapshot.Offer(1)), silent)
	refused(t, err, context.DeadlineExceeded)
	nothingIsLeft(t, r)
}

// A sync that has finished isn't cancelled.
func TestASyncThatIsCancelledAtItsEnd(t *testing.T) {
	r, snapshot := newReplica(), must(filled(1).Snapshot())
	ctx, cancel := context.WithCancel(context.Background())
	defer cancel()
	synced := must(r.Sync(ctx, 9, must(snapshot.Offer(1)), func(ctx context.Context, asks [][]byte) ([][]byte, error) {
		if asks[0][5] == 3 {
			cancel() // the only leaf is the last ask
		}
		return reachOf(snapshot, 1)(ctx, asks)
	}))
	equal(t, []any{synced.Finished(), ctx.Err()}, []any{true, context.Canceled})
}

// A renewal that is cancelled at any step leaves the replica unchanged.
func TestARenewalThatIsCancelled(t *testing.T) {
	r := withLimit(10_000)
	put(r, "key", "value")
	for counter := uint64(1); counter < 500; counter++ {
		must(r.Put(1, []byte("key"), nil, clock(1, counter)))
	}
	must(r.Root())
	for steps := 0; ; steps++ {
		before := stateOf(r)
		err := r.RenewInPlace(&countdown{context.Background(), steps}, 10_000)
		if err == nil {
			equal(t, []any{steps > 1, must(r.Stats()).First}, []any{true, uint64(499)})
			return
		}
		refused(t, err, context.Canceled)
		equal(t, stateOf(r), before)
		nothingIsLeft(t, r)
	}
}
