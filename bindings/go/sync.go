package antientropy

import (
	"context"
	"errors"
	"fmt"
)

// ErrNoReach is the error of a sync without a [Reach].
var ErrNoReach = errors.New("antientropy: the sync has no Reach")

// A Reach sends asks to a partner, and returns the answers in any order. Missing answers are nil, or left out. An error
// ends the sync. The context is the sync's: a waiting reach returns when it is done.
type Reach func(ctx context.Context, asks [][]byte) (answers [][]byte, err error)

// Synced is the result of a sync.
type Synced struct {
	Report   Report   // state of the exchange at the end
	Accepted uint64   // number of new versions: they are now entries of the journal
	Known    uint64   // number of known versions
	Asks     uint64   // number of asks sent
	Bad      uint64   // number of bad answers
	Lost     uint64   // number of asks without an answer
	Left     []uint16 // leaves that were left because a key in each of them is crowded
}

// notBegun is the result of a sync that opened no session: it isn't finished.
var notBegun = Synced{Report: ReportWaiting}

// Finished returns true if the replica has seen each version of the offer.
func (s Synced) Finished() bool {
	return s.Report == ReportFinished
}

// Sync takes the versions that this replica is missing from a partner's offer: a complete [Replica.Exchange] within the
// default bounds.
//
// Refused as [Replica.Exchange], and as [ErrNotCanonical], [ErrJournalFull] or [ErrNoMemory]; without a reach as
// [ErrNoReach], before anything else. After a refusal, or an error of reach, the versions taken stay: the result has
// their number. In any case it drops the sessions that have ended, like [Replica.DropSessions].
//
// A context that is done ends the sync before it hashes the next portion, or sends the next asks: the error wraps the
// context's, the session is cancelled, and the replica keeps no moment.
func (r *Replica) Sync(ctx context.Context, partner Node, offer []byte, reach Reach) (Synced, error) {
	return r.SyncWithin(ctx, DefaultBounds(), partner, offer, reach)
}

// SyncWithin takes the versions of a partner's offer like [Replica.Sync], within the given bounds.
func (r *Replica) SyncWithin(ctx context.Context, bounds Bounds, partner Node, offer []byte,
	reach Reach) (Synced, error) {
	if reach == nil {
		return notBegun, ErrNoReach
	}
	exchange, err := r.exchangeWhile(ctx, partner, offer, bounds)
	if err != nil {
		return notBegun, err
	}
	defer exchange.Close() // even if reach panics
	err = exchange.run(ctx, reach)
	synced, ended := exchange.synced()
	if err == nil {
		err = ended
	}
	return synced, err
}

// isDone returns an error that wraps the error of a context, if the context is done.
func isDone(ctx context.Context) error {
	if err := ctx.Err(); err != nil {
		return fmt.Errorf("antientropy: ended early: %w", err)
	}
	return nil
}

// run sends asks and takes their answers until no ask is left, or until the context is done.
func (e *Exchange) run(ctx context.Context, reach Reach) error {
	for {
		asks, err := e.Asks()
		if err != nil || len(asks) == 0 {
			return err
		}
		if err := isDone(ctx); err != nil {
			return err
		}
		answers, err := reach(ctx, asks)
		if err != nil {
			return ended(ctx, err)
		}
		if err := e.takeAll(asks, answers); err != nil {
			return err
		}
	}
}

// ended returns the error of a reach. If the context is done, that may be the cause, so the error wraps the context's.
func ended(ctx context.Context, err error) error {
	if done := ctx.Err(); done != nil && !errors.Is(err, done) {
		return fmt.Errorf("antientropy: ended early: %w: %v", done, err)
	}
	return err
}

// takeAll takes answers, and loses the asks without one.
func (e *Exchange) takeAll(asks, answers [][]byte) error {
	for _, answer := range answers {
		if answer == nil {
			continue
		}
		if _, err := e.Take(answer); err != nil {
			return err
		}
	}
	for _, ask := range asks {
		if err := e.Lose(ask); err != nil {
			return err
		}
	}
	return nil
}

// synced returns the result of a sync, and the refusal that ended it, if any.
func (e *Exchange) synced() (Synced, error) {
	progress, err := e.Progress()
	if err != nil {
		return notBegun, err
	}
	left, err := e.Left()
	switch progress.Report {
	case ReportStopped:
		err = progress.Cause
	case ReportFailed:
		err = ErrNotCanonical
	}
	return Synced{
		Report:   progress.Report,
		Accepted: progress.Accepted,
		Known:    progress.Known,
		Asks:     progress.Asks,
		Bad:      progress.Bad,
		Lost:     progress.Lost,
		Left:     left,
	}, err
}
