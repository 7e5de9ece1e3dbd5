package antientropy_test

import (
	"bytes"
	"context"
	"crypto/sha256"
	"errors"
	"fmt"
	"strings"
	"testing"

	antientropy "example.org/antientropy/go"
)

// A link carries asks to a partner's snapshot, and may change the answers. It records the lengths of the lists.
type link struct {
	snapshot *antientropy.Snapshot
	change   func(asks, answers [][]byte) ([][]byte, error)
	rounds   []int
}

func (l *link) reach(ctx context.Context, asks [][]byte) ([][]byte, error) {
	if l.rounds = append(l.rounds, len(asks)); len(l.rounds) > 10_000 {
		panic("the sync doesn't end")
	}
	answers, err := reachOf(l.snapshot, 1)(ctx, asks)
	if l.change != nil {
		return l.change(asks, answers)
	}
	return answers, err
}

// sync syncs from a partner, over a link.
func (l *link) sync(r, partner *antientropy.Replica, bounds antientropy.Bounds) (antientropy.Synced, error) {
	l.snapshot = must(partner.Snapshot())
	return r.SyncWithin(context.Background(), bounds, 9, must(l.snapshot.Offer(1)), l.reach)
}

// reversed changes the order of answers.
func reversed(_, answers [][]byte) ([][]byte, error) {
	for i, j := 0, len(answers)-1; i < j; i, j = i+1, j-1 {
		answers[i], answers[j] = answers[j], answers[i]
	}
	return answers, nil
}

// noSession checks that a replica keeps no session.
func noSession(t *testing.T, r *antientropy.Replica) {
	t.Helper()
	counts := must(r.Stats())
	equal(t, []uint64{counts.Sessions, counts.OpenSessions}, []uint64{0, 0})
}

// syncFrom syncs from a partner.
func syncFrom(r, partner *antientropy.Replica) (antientropy.Synced, error) {
	return new(link).sync(r, partner, antientropy.DefaultBounds())
}

// A sync without a reach opens no session, and hashes nothing.
func TestASyncWithoutReach(t *testing.T) {
	r, offer := filled(1), must(must(filled(2).Snapshot()).Offer(1))
	unchanged(t, r, antientropy.ErrNoReach, func() error {
		synced, err := r.Sync(context.Background(), 9, offer, nil)
		equal(t, synced.Finished(), false)
		return err
	})
}

// A sync that opens no session isn't finished.
func TestARefusedSync(t *testing.T) {
	r, other := newReplica(), antientropy.Config{Format: 2, Bits: 1, Range: 1, Limit: 10}
	offer := must(must(must(antientropy.NewReplica(other)).Snapshot()).Offer(1))
	synced, err := r.Sync(context.Background(), 9, offer, reachOf(must(r.Snapshot()), 1))
	refused(t, err, antientropy.ErrOtherRange)
	equal(t, synced, antientropy.Synced{Report: antientropy.ReportWaiting})
}

func TestBothWays(t *testing.T) {
	a, b, l := filled(300), newReplica(), link{}
	must(b.Put(2, []byte("other"), nil, nil))
	synced := must(l.sync(b, a, antientropy.Bounds{Asks: 10, Bytes: 1 << 20}))
	equal(t, []uint64{synced.Accepted, must(syncFrom(a, b)).Accepted}, []uint64{300, 1})
	most, asks := 0, 0
	for _, round := range l.rounds {
		if asks += round; round > most {
			most = round
		}
	}
	equal(t, []any{synced.Asks, synced.Finished(), most}, []any{uint64(asks), true, 10})
	equal(t, must(a.Root()), must(b.Root()))
	equal(t, must(b.Entries(0).All())[300].Source, antientropy.SourceCopy)
}

func TestEqualRoots(t *testing.T) {
	a, b, l := filled(30), newReplica(), link{}
	must(syncFrom(b, a))
	synced := must(l.sync(b, a, antientropy.DefaultBounds()))
	equal(t, []any{synced, len(l.rounds)}, []any{antientropy.Synced{Report: antientropy.ReportFinished}, 0})
	noSession(t, b)
}

func TestAPartnerThatLies(t *testing.T) {
	b := newReplica()
	l := link{change: func(_, answers [][]byte) ([][]byte, error) {
		for _, answer := range answers {
			answer[len(answer)-1] ^= 1
		}
		return answers, nil
	}}
	synced := must(l.sync(b, filled(300), antientropy.Bounds{Bad: 5}))
	equal(t, synced, antientropy.Synced{Report: antientropy.ReportTooManyBad, Asks: 6, Bad: 6})
	equal(t, must(b.Stats()).Entries, uint64(0))
}

func TestALinkThatFails(t *testing.T) {
	b, lost := newReplica(), errors.New("the link is lost")
	l := link{}
	l.change = func(_, answers [][]byte) ([][]byte, error) {
		if len(l.rounds) == 2 {
			return nil, lost
		}
		return answers, nil
	}
	synced, err := l.sync(b, filled(300), antientropy.DefaultBounds())
	refused(t, err, lost)
	equal(t, []any{synced.Asks, synced.Report}, []any{uint64(17), antientropy.ReportWaiting})
	noSession(t, b)
}

func TestALinkThatPanics(t *testing.T) {
	b := newReplica()
	l := link{change: func(_, _ [][]byte) ([][]byte, error) { panic("link") }}
	func() {
		defer func() { equal(t, recover(), "link") }()
		must(l.sync(b, filled(30), antientropy.DefaultBounds()))
	}()
	noSession(t, b)
}

// longRows returns two replicas that have 2,000 keys with values of 300 bytes. The partner has put 20 of them again.
func longRows() (asker, partner *antientropy.Replica) {
	asker, partner = newReplica(), newReplica()
	value := strings.Repeat("v", 300)
	for n := 0; n < 2_000; n++ {
		key := fmt.Sprint("key ", n)
		put(asker, key, value)
		put(partner, key, value)
		if n%100 == 0 {
			must(partner.Put(1, []byte(key), []byte("new"), clock(1, 1)))
		}
	}
	return asker, partner
}

// syncLongRows syncs them over a link that changes the patches. It returns the number of bytes of outlines and patches,
// and of the answers that they replace.
func syncLongRows(t *testing.T, change func(patch []byte) []byte) (sent, answered int) {
	t.Helper()
	asker, partner := longRows()
	l := link{}
	l.change = func(asks, answers [][]byte) ([][]byte, error) {
		for i, ask := range asks {
			if ask[0] == 4 {
				sent += len(ask) + len(answers[i])
				answered += len(must(l.snapshot.Serve(1, append([]byte{2}, ask[1:8]...))))
				answers[i] = change(answers[i])
			}
		}
		return answers, nil
	}
	synced := must(l.sync(asker, partner, antientropy.DefaultBounds()))
	equal(t, []any{synced.Report, synced.Accepted}, []any{antientropy.ReportFinished, uint64(20)})
	equal(t, []uint64{synced.Bad, synced.Lost}, []uint64{0, 0})
	return sent, answered
}

// Common versions aren't sent.
func TestPatches(t *testing.T) {
	sent, answered := syncLongRows(t, func(patch []byte) []byte { return patch })
	if 3*sent >= answered {
		t.Errorf("outlines and patches have %d bytes, and the answers %d", sent, answered)
	}
}

// Within plain bounds no ask is an outline.
func TestPlainAsks(t *testing.T) {
	asker, partner := longRows()
	bounds := antientropy.DefaultBounds()
	bounds.Plain = true
	l := link{}
	l.change = func(asks, answers [][]byte) ([][]byte, error) {
		for _, ask := range asks {
			equal(t, len(ask), antientropy.AskLen)
		}
		return answers, nil
	}
	equal(t, must(l.sync(asker, partner, bounds)).Accepted, uint64(20))
}

// Asks are plain if all the partner's patches are wrong, or if it refuses outlines, as an older partner does.
func TestOutlinesWithoutATextCountAsNothing(t *testing.T) {
	lie := func(patch []byte) []byte {
		patch[len(patch)-1] ^= 1
		return patch
	}
	refuse := func([]byte) []byte { return nil }
	for _, change := range []func([]byte) []byte{lie, refuse} {
		sent, _ := syncLongRows(t, change)
		equal(t, sent > 0, true)
	}
}

// Asks stop when the journal is full. Versions taken before stay.
func TestAFullJournal(t *testing.T) {
	snapshot, offer := offered()
	small := withLimit(10)
	exchange := opened(small, offer)
	takeAll(exchange, snapshot, func() {})
	progress := must(exchange.Progress())
	equal(t, []any{progress.Report, progress.Cause}, []any{antientropy.ReportStopped, antientropy.ErrJournalFull})
	check(exchange.GoOn())
	equal(t, len(must(exchange.Asks())) > 0, true)
	check(exchange.Close())
	synced, err := small.Sync(context.Background(), 9, offer, reachOf(snapshot, 7))
	refused(t, err, antientropy.ErrJournalFull)
	taken := progress.Accepted + synced.Accepted
	equal(t, []any{taken > 0, taken}, []any{true, must(small.Stats()).Entries})
	noSession(t, small)
}

// A sync fails if a partner's text doesn't encode a node, and leaves no session.
func TestASyncThatFails(t *testing.T) {
	digest := sha256.Sum256([]byte("junk"))
	offer := bytes.Join([][]byte{{1, 0, 0, 0, 1, 2, 0}, digest[:]}, nil)
	answer := bytes.Join([][]byte{{3, 0, 0, 0, 1, 0, 0, 0, 0, 0, 0, 0, 0, 0, 0, 4}, []byte("junk")}, nil)
	b := newReplica()
	reach := func(context.Context, [][]byte) ([][]byte, error) { return [][]byte{answer}, nil }
	synced, err := b.Sync(context.Background(), 9, offer, reach)
	refused(t, err, antientropy.ErrNotCanonical)
	equal(t, synced, antientropy.Synced{Report: antientropy.ReportFailed, Asks: 1})
	noSession(t, b)
}
