package antientropy

// #include <antientropy.h>
import "C"

import (
	"context"
	"runtime"
	"sync"
)

// Bounds are the bounds of an exchange.
type Bounds struct {
	Asks  uint64 // maximum number of asks in flight; one is always allowed
	Bytes uint64 // maximum number of estimated bytes of their answers; one may be longer
	Bad   uint64 // maximum number of bad answers: one more ends the exchange
	Lost  uint64 // maximum number of lost asks: one more ends the exchange
	Plain bool   // no ask is an outline: that saves processor time on both sides, and sends more over the link
}

// DefaultBounds returns the bounds of [Replica.Sync]: 256 asks, 1 MiB, 8 bad answers, 256 lost asks.
func DefaultBounds() Bounds {
	return Bounds{Asks: 256, Bytes: 1 << 20, Bad: 8, Lost: 256}
}

// A VerdictKind is the kind of an exchange's verdict on an answer.
type VerdictKind uint64

// Kinds of verdicts.
const (
	VerdictTaken   VerdictKind = C.ANTIENTROPY_VERDICT_TAKEN   // the session took it
	VerdictLeft    VerdictKind = C.ANTIENTROPY_VERDICT_LEFT    // the leaf was left: a key in its text is crowded
	VerdictBad     VerdictKind = C.ANTIENTROPY_VERDICT_BAD     // it counts as bad
	VerdictLate    VerdictKind = C.ANTIENTROPY_VERDICT_LATE    // it is late or of another offer, or the exchange is over
	VerdictRefused VerdictKind = C.ANTIENTROPY_VERDICT_REFUSED // no space was left for it
	VerdictFailed  VerdictKind = C.ANTIENTROPY_VERDICT_FAILED  // the text doesn't encode a node: the session has failed
)

// String returns the name of the kind.
func (k VerdictKind) String() string {
	return nameOf(uint64(k), "Taken", "Left", "Bad", "Late", "Refused", "Failed")
}

// A Verdict is the verdict of an exchange on an answer.
type Verdict struct {
	Kind VerdictKind
	// [ErrBadMessage], [ErrNotAsked] or [ErrWrongDigest] of a bad answer, [ErrJournalFull] or [ErrNoMemory] of a refused
	// one, otherwise nil.
	Cause    error
	Accepted uint64 // number of new versions: they are now entries of the journal
	Known    uint64 // number of known versions
}

// A Report is the state of an exchange.
type Report uint64

// Reports of an exchange.
const (
	ReportFinished    Report = C.ANTIENTROPY_REPORT_FINISHED      // the replica has seen each version of the offer
	ReportWaiting     Report = C.ANTIENTROPY_REPORT_WAITING       // an ask is in flight, or is still to be sent
	ReportLeft        Report = C.ANTIENTROPY_REPORT_LEFT          // only leaves that were left are outstanding
	ReportStopped     Report = C.ANTIENTROPY_REPORT_STOPPED       // no space was left for an answer: call GoOn or Close
	ReportTooManyBad  Report = C.ANTIENTROPY_REPORT_TOO_MANY_BAD  // more answers were bad than the bounds allow
	ReportTooManyLost Report = C.ANTIENTROPY_REPORT_TOO_MANY_LOST // more asks were lost than the bounds allow
	ReportFailed      Report = C.ANTIENTROPY_REPORT_FAILED        // the session has failed
	ReportClosed      Report = C.ANTIENTROPY_REPORT_CLOSED        // the exchange was closed: no method returns it
	ReportGone        Report = C.ANTIENTROPY_REPORT_GONE          // a renewal or a migration has ended the session
)

// String returns the name of the report.
func (r Report) String() string {
	return nameOf(uint64(r), "Finished", "Waiting", "Left", "Stopped", "TooManyBad", "TooManyLost", "Failed", "Closed",
		"Gone")
}

// Progress has the report and the counts of an exchange.
type Progress struct {
	Report        Report
	Cause         error  // [ErrJournalFull] or [ErrNoMemory] if the exchange has stopped, otherwise nil
	Asks          uint64 // asks sent
	InFlight      uint64 // asks in flight
	BytesInFlight uint64 // estimated bytes of their answers
	Bad           uint64 // bad answers
	Lost          uint64 // lost asks
	Accepted      uint64 // new versions in the answers taken
	Known         uint64 // known versions in them
	Leaves        uint64 // leaves taken
}

// An Exchange is a sync with a partner that the program polls: it returns the asks to send, and takes the answers in
// any order. The program carries both. It lasts as long as the program wants, with puts and other calls of the replica
// in between; a renewal or a migration ends it.
//
// It has the lock of its replica. After [Exchange.Close] its calls are refused as [ErrEmpty]. A copy is the same
// exchange. An exchange that is collected without Close is closed when its replica opens the next one, or by
// [Replica.DropSessions].
type Exchange struct {
	at *exchange
}

// An exchange is the state that an [Exchange] and its copies share, with the lock of its replica.
type exchange struct {
	*replica
	session *session
	plain   bool // no ask is an outline
}

// A session has the memory of an exchange. It doesn't refer to the replica, so the collector finds both at once.
type session struct {
	handle  C.struct_antientropy_exchange
	weight  weight
	orphans *orphans
}

// Exchange opens an exchange with a partner by its offer. It compares the current rows, which are held as a moment and
// hashed while other goroutines put. If the roots are equal, the exchange is finished and opens no session.
//
// Refused as [ErrBadClock] (the partner is over [NodeMax]), [ErrBadMessage], [ErrOtherFormat], [ErrOtherRange] or
// [ErrSessionsFull].
func (r *Replica) Exchange(partner Node, offer []byte, bounds Bounds) (*Exchange, error) {
	return r.exchangeWhile(context.Background(), partner, offer, bounds)
}

// exchangeWhile opens an exchange, unless the context is done before.
func (r *Replica) exchangeWhile(ctx context.Context, partner Node, offer []byte, bounds Bounds) (*Exchange, error) {
	return atMoment(ctx, r.at, func(held *replica) (*Exchange, error) {
		return held.exchange(partner, offer, bounds)
	})
}

// An orphans has the sessions of a replica that were collected without being closed. It has a separate lock, since no
// finalizer waits for the replica's.
type orphans struct {
	lock     sync.Mutex
	sessions []*session
	isClosed bool // the replica is closed
}

// add adds a session. If the replica is closed, the freer gets it.
func (o *orphans) add(session *session) {
	o.lock.Lock()
	defer o.lock.Unlock()
	if o.isClosed {
		collected.add(session.free)
	} else {
		o.sessions = append(o.sessions, session)
	}
}

// take removes and returns all sessions. If the replica is about to be freed, later ones aren't kept either.
func (o *orphans) take(isLast bool) []*session {
	o.lock.Lock()
	defer o.lock.Unlock()
	sessions := o.sessions
	o.sessions, o.isClosed = nil, o.isClosed || isLast
	return sessions
}

// closeOrphans closes the exchanges that were collected. The caller holds the lock, and then frees the replica if these
// are the last ones.
func (r *replica) closeOrphans(isLast bool) {
	if r.orphans == nil {
		return
	}
	sessions := r.orphans.take(isLast)
	for _, session := range sessions {
		C.antientropy_exchange_close(&session.handle, &r.handle)
		session.free()
	}
	if len(sessions) > 0 {
		C.antientropy_drop_sessions(&r.handle)
	}
}

// free frees the memory. No other goroutine has the session, or the caller holds the lock of its replica.
func (s *session) free() {
	C.antientropy_exchange_free(&s.handle)
	s.weight.set(0)
}

// exchange opens an exchange at the moment that the replica keeps. The garbage collector leaves it to the replica, once
// no copy is used. The caller holds the lock.
func (r *replica) exchange(partner Node, offer []byte, bounds Bounds) (*Exchange, error) {
	within := C.struct_antientropy_bounds{
		asks:  C.uint64_t(bounds.Asks),
		bytes: C.uint64_t(bounds.Bytes),
		bad:   C.uint64_t(bounds.Bad),
		lost:  C.uint64_t(bounds.Lost),
	}
	r.closeOrphans(false)
	if r.orphans == nil {
		r.orphans = new(orphans)
	}
	made := &session{orphans: r.orphans}
	number := C.antientropy_exchange_open(&r.handle, &made.handle, C.uint64_t(partner), bytesAt(offer),
		C.size_t(len(offer)), &within)
	if err := check(number); err != nil {
		return nil, err
	}
	made.weight.set(r.tree)
	runtime.SetFinalizer(made, (*session).leave)
	return &Exchange{&exchange{replica: r, session: made, plain: bounds.Plain}}, nil
}

// leave passes a session that isn't closed to its replica.
func (s *session) leave() {
	if s.handle.held {
		s.orphans.add(s)
	}
}

// locked takes the lock, which the caller releases. A zero exchange is empty.
func (e *exchange) locked() *exchange {
	if e == nil {
		e = &exchange{replica: new(replica), session: new(session)}
	}
	e.lock.Lock()
	return e
}

// Asks returns the asks to send now: none if each outstanding node is in flight or was left, if the bounds allow no
// more, or if the exchange has stopped or is over. They are in flight from then on: send each of them, or lose it. An
// ask may be an outline, which makes the partner send only the differences.
func (e *Exchange) Asks() ([][]byte, error) {
	held := e.at.locked()
	defer held.lock.Unlock()
	var asks [][]byte
	for {
		ask, found, err := held.next()
		if !found {
			return asks, err
		}
		asks = append(asks, ask)
	}
}

// next returns the next ask to send, or false without one. The caller holds the lock.
func (e *exchange) next() (ask []byte, found bool, err error) {
	return bytesIfAny(func(out *C.uint8_t, outLen C.size_t, need *C.uint64_t) C.uint32_t {
		if e.plain {
			outLen = AskLen
		}
		return C.antientropy_exchange_next(&e.session.handle, &e.handle, out, outLen, need)
	})
}

// Take takes a partner's answer, which isn't trusted, and judges it by the node that it names. Answers may arrive in
// any order, late or twice. Lose each ask whose time is over, even if some answer arrived instead.
func (e *Exchange) Take(answer []byte) (Verdict, error) {
	var verdict C.struct_antientropy_verdict
	held := e.at.locked()
	defer held.lock.Unlock()
	err := check(C.antientropy_exchange_take(&held.session.handle, &held.handle, bytesAt(answer), C.size_t(len(answer)),
		&verdict))
	held.weight.addVersions(int(verdict.accepted), len(answer))
	return Verdict{
		Kind:     VerdictKind(verdict.verdict),
		Cause:    check(C.uint32_t(verdict.cause)),
		Accepted: uint64(verdict.accepted),
		Known:    uint64(verdict.known),
	}, err
}

// Lose counts an ask in flight as lost, so that [Exchange.Asks] may return it again. Refused as [ErrBadMessage] if the
// bytes aren't an ask or an outline.
func (e *Exchange) Lose(ask []byte) error {
	held := e.at.locked()
	defer held.lock.Unlock()
	return check(C.antientropy_exchange_lose(&held.session.handle, bytesAt(ask), C.size_t(len(ask))))
}

// GoOn resumes an exchange that stopped because no space was left for an answer. Each ask whose answer was refused
// counts as lost. If the journal is full, close the exchange and renew the replica instead.
func (e *Exchange) GoOn() error {
	held := e.at.locked()
	defer held.lock.Unlock()
	return check(C.antientropy_exchange_go_on(&held.session.handle))
}

// Progress returns the report and the counts.
func (e *Exchange) Progress() (Progress, error) {
	var progress C.struct_antientropy_progress
	held := e.at.locked()
	defer held.lock.Unlock()
	err := check(C.antientropy_exchange_report(&held.session.handle, &held.handle, &progress))
	return Progress{
		Report:        Report(progress.report),
		Cause:         check(C.uint32_t(progress.cause)),
		Asks:          uint64(progress.asks),
		InFlight:      uint64(progress.in_flight),
		BytesInFlight: uint64(progress.bytes_in_flight),
		Bad:           uint64(progress.bad),
		Lost:          uint64(progress.lost),
		Accepted:      uint64(progress.accepted),
		Known:         uint64(progress.known),
		Leaves:        uint64(progress.leaves),
	}, err
}

// Left returns the leaves that were left because a key in each of them is crowded. Merge the versions of these keys.
func (e *Exchange) Left() ([]uint16, error) {
	held := e.at.locked()
	defer held.lock.Unlock()
	var leaves []uint16
	for {
		var node C.struct_antientropy_node
		place := C.uint64_t(len(leaves))
		found, err := isFound(C.antientropy_exchange_left(&held.session.handle, &held.handle, place, &node))
		if !found {
			return leaves, err
		}
		leaves = append(leaves, uint16(node.index))
	}
}

// Close cancels the session if it is in progress, and drops it with the others that have ended, as
// [Replica.DropSessions]. Another Close does nothing. The error is nil.
func (e *Exchange) Close() error {
	e.at.close()
	return nil
}

// close cancels the session, frees the memory, and drops the sessions that have ended.
func (e *exchange) close() {
	held := e.locked()
	defer held.lock.Unlock()
	isOpen := C.antientropy_exchange_close(&held.session.handle, &held.handle) == C.ANTIENTROPY_OK
	held.session.free()
	if isOpen {
		C.antientropy_drop_sessions(&held.handle)
		held.countAndRenewIfDue()
	}
}
