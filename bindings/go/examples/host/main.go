// Host is a whole host: two nodes, each a process with a replica of the same range. A node syncs its log before it
// replies, starts from its checkpoint and log, keeps hints while its partner is down, and syncs from it under a
// deadline. `go run ./examples/host` starts both nodes, writes to them, kills node 2 by SIGKILL and starts it again. It
// ends when the roots are equal, and counts the acknowledged writes that are lost. docs/EMBEDDING_C.md, "Restarts", has
// further checks of a damaged log.
package main

import (
	"bytes"
	"encoding/binary"
	"encoding/gob"
	"errors"
	"fmt"
	"hash/crc32"
	"io"
	"log"
	"net"
	"net/rpc"
	"os"
	"os/exec"
	"strconv"
	"sync"
	"sync/atomic"
	"syscall"
	"time"

	antientropy "example.org/antientropy/go"
)

const (
	recordsMax = 60                     // records of a log: then a checkpoint begins a new one
	hintsMax   = 40                     // pending hints: a sync delivers further versions
	period     = 50 * time.Millisecond  // between syncs
	patience   = 100 * time.Millisecond // with the link of a sync, which continues in the next period
)

var config = antientropy.Config{Format: 2, Limit: antientropy.EntriesMax}

// A Node has a replica, a log and hints. Its exported methods are its calls, by net/rpc. They commit before they
// return: all versions in a reply are on the disk.
type Node struct {
	id, partner antientropy.Node
	replica     *antientropy.Replica
	hints       *antientropy.Hints // in memory: a sync delivers the versions of lost ones
	offered     atomic.Pointer[offer]
	exchange    *antientropy.Exchange // in progress, or nil
	late        atomic.Uint64         // deadlines that passed before a sync ended

	mu       sync.Mutex // guards the log
	log      *os.File
	encoder  *gob.Encoder // of the log
	synced   *os.File     // has the place that the synced records reach
	place    uint64       // of the next record, among all that were ever logged
	records  int          // in the log
	position uint64       // of the next entry to log
}

// A Write is a version to accept, or to put with its clock as the context.
type Write struct {
	Key     []byte
	Version antientropy.Version
}

// Put puts a value, or a tombstone, which deletes the key. It sends the version to the partner, or keeps a hint.
func (n *Node) Put(write Write, receipt *antientropy.Receipt) (err error) {
	version := &write.Version
	if version.Kind == antientropy.Tombstone {
		*receipt, err = n.replica.PutTombstone(n.id, write.Key, version.Clock)
	} else {
		*receipt, err = n.replica.Put(n.id, write.Key, version.Value, version.Clock)
	}
	if err != nil {
		return err
	}
	n.commit()
	version.Clock = must(antientropy.Merge(version.Clock, antientropy.Clock{{Node: n.id, Counter: receipt.Counter}}))
	if call(n.partner, "Accept", write, new(bool)) != nil && must(n.hints.Stats()).Pending < hintsMax {
		must(n.hints.Keep(n.partner, write.Key, *version))
	}
	return nil
}

// Accept accepts a copy or a hint. It returns false if the version was known.
func (n *Node) Accept(write Write, accepted *bool) (err error) {
	*accepted, err = n.replica.Accept(write.Key, write.Version)
	n.commit()
	return err
}

// Get returns the versions of a key.
func (n *Node) Get(key []byte, versions *[]antientropy.Version) (err error) {
	*versions, err = n.replica.Get(key)
	n.commit()
	return err
}

// An offer is a snapshot that the partner syncs from. The number of the next entry is its number.
type offer struct {
	*antientropy.Snapshot
	first sync.Once
}

// Offer offers the current rows.
func (n *Node) Offer(_ int, message *[]byte) error {
	next := &offer{Snapshot: must(n.replica.Snapshot())}
	n.commit()
	*message = must(next.Snapshot.Offer(uint32(next.Entries())))
	if previous := n.offered.Swap(next); previous != nil {
		return previous.Close()
	}
	return nil
}

// Serve returns the answer to an ask. The first one to each offer is too late for the partner, to show its deadline.
func (n *Node) Serve(ask []byte, answer *[]byte) (err error) {
	offered := n.offered.Load()
	if offered == nil {
		return antientropy.ErrGone
	}
	offered.first.Do(func() { time.Sleep(2 * patience) })
	*answer, err = offered.Serve(uint32(offered.Entries()), ask)
	return err
}

// A State has a node's root, and the numbers of its late syncs and of its pending hints.
type State struct {
	Root        antientropy.Root
	Late, Hints uint64
}

// State returns the state.
func (n *Node) State(_ int, state *State) error {
	*state = State{must(n.replica.Root()), n.late.Load(), must(n.hints.Stats()).Pending}
	n.commit()
	return nil
}

// deliver sends the pending hints to the partner, until a call fails.
func (n *Node) deliver() {
	for pending := n.hints.Pending(n.partner); pending.Next(); {
		hint, accepted := pending.Item(), false
		if call(n.partner, "Accept", Write{hint.Key, hint.Version}, &accepted) != nil {
			return
		}
		check(n.hints.Confirm(hint.Number, !accepted))
	}
	check(n.hints.Renew()) // drops the delivered ones
}

// pull syncs from the partner. If it returns true, the deadline has passed: the next call continues with the exchange.
func (n *Node) pull() (late bool) {
	link, err := dial(n.partner, patience)
	if err != nil {
		return false
	}
	defer link.Close()
	if n.exchange == nil {
		var offer []byte
		if link.Call("Node.Offer", 0, &offer) != nil {
			return false
		}
		n.exchange = must(n.replica.Exchange(n.partner, offer, antientropy.DefaultBounds()))
	}
	for over := false; !late && !over; {
		asks := must(n.exchange.Asks())
		calls := make([]*rpc.Call, len(asks))
		for i, ask := range asks {
			calls[i] = link.Go("Node.Serve", ask, new([]byte), nil)
		}
		over = len(asks) == 0
		for i, call := range calls {
			<-call.Done
			if call.Error == nil {
				must(n.exchange.Take(*call.Reply.(*[]byte)))
			} else if errors.As(call.Error, new(rpc.ServerError)) {
				over = true // the partner has restarted, and doesn't have the offer
			} else {
				late = true
				check(n.exchange.Lose(asks[i]))
			}
		}
	}
	if late {
		n.late.Add(1)
		return true
	}
	check(n.exchange.Close())
	n.exchange = nil
	return false
}

// A record of a log has a checkpoint if it is the first one, and packed entries otherwise.
type record struct {
	Place uint64
	Data  []byte
	Sum   uint32
}

// sum returns the checksum of a record.
func sum(place uint64, data []byte) uint32 {
	return crc32.ChecksumIEEE(append(binary.BigEndian.AppendUint64(nil, place), data...))
}

// commit logs the new entries. The process ends without a reply if that fails.
func (n *Node) commit() {
	n.mu.Lock()
	defer n.mu.Unlock()
	packed, err := n.replica.PackedEntries(n.position)
	for ; err == nil && len(packed.Bytes) > 0; packed, err = n.replica.PackedEntries(n.position) {
		n.append(packed.Bytes)
		n.note()
		n.position = packed.Next
	}
	if n.records >= recordsMax || errors.Is(err, antientropy.ErrBadPosition) { // or a renewal has overtaken the log
		n.checkpoint()
		return
	}
	check(err)
}

// checkpoint replaces the log by one that begins with a checkpoint.
func (n *Node) checkpoint() {
	var rows bytes.Buffer
	n.position = must(n.replica.Save(&rows))
	n.log.Close()
	n.log = must(os.Create(path(n.id, "new")))
	n.encoder, n.records = gob.NewEncoder(n.log), 0
	n.append(rows.Bytes())
	check(os.Rename(n.log.Name(), path(n.id, "log")))
	check(must(os.Open(".")).Sync())
	n.note()
	check(n.synced.Sync())
}

func (n *Node) append(data []byte) {
	check(n.encoder.Encode(record{n.place, data, sum(n.place, data)}))
	check(n.log.Sync())
	n.place++
	n.records++
}

// note notes the place that the synced records reach. A crash of the machine may undo that.
func (n *Node) note() {
	must(n.synced.WriteAt([]byte(fmt.Sprintf("%016x %08x", n.place, sum(n.place, nil))), 0))
}

// load loads the log. The process ends if acknowledged records are lost: the node has to return with a new number.
func (n *Node) load() {
	var synced uint64
	var noted uint32
	must(fmt.Fscanf(n.synced, "%x %x", &synced, &noted))
	for records := gob.NewDecoder(must(os.Open(path(n.id, "log")))); ; n.place++ {
		var next record
		if records.Decode(&next) != nil || next.Sum != sum(next.Place, next.Data) {
			break // the log ends here, perhaps by a torn record
		}
		if n.replica == nil {
			n.replica, n.place = must(antientropy.Load(bytes.NewReader(next.Data), config.Limit)), next.Place
			continue
		}
		for _, entry := range must(antientropy.Packed{Bytes: next.Data, Format: config.Format}.Entries().All()) {
			must(n.replica.Accept(entry.Key, entry.Version))
		}
	}
	if noted != sum(synced, nil) || n.replica == nil || n.place < synced {
		log.Fatalf("the log of node %d is damaged", n.id)
	}
}

// run runs a node until its standard input ends. Only a first start may find no files of the node.
func run(id antientropy.Node, first bool) {
	n := &Node{id: id, partner: 3 - id, hints: must(antientropy.NewHints())}
	flags := os.O_RDWR
	if first {
		flags |= os.O_CREATE | os.O_EXCL
	}
	n.synced = must(os.OpenFile(path(id, "synced"), flags, 0o666))
	check(syscall.Flock(int(n.synced.Fd()), syscall.LOCK_EX|syscall.LOCK_NB)) // no other process is this node
	if first {
		n.replica = must(antientropy.NewReplica(config))
	} else {
		n.load()
	}
	n.checkpoint() // syncs all that was loaded
	for n.pull() { // before the first put, if the partner can be reached
	}
	check(n.replica.KeepRenewed())
	check(rpc.Register(n))
	os.Remove(path(id, "socket")) // of a process that was killed
	go rpc.Accept(must(net.Listen("unix", path(id, "socket"))))
	go func() {
		for range time.Tick(period) {
			n.deliver()
			n.pull()
			n.commit()
		}
	}()
	must(io.Copy(io.Discard, os.Stdin))
}

func path(id antientropy.Node, name string) string { return fmt.Sprint(id, ".", name) }

// dial returns a link to a node, which gives up at the deadline.
func dial(id antientropy.Node, deadline time.Duration) (*rpc.Client, error) {
	link, err := net.Dial("unix", path(id, "socket"))
	if err != nil {
		return nil, err
	}
	return rpc.NewClient(link), link.SetDeadline(time.Now().Add(deadline))
}

// call makes one call of a node.
func call(id antientropy.Node, method string, args, reply any) error {
	link, err := dial(id, time.Minute)
	if err != nil {
		return err
	}
	defer link.Close()
	return link.Call("Node."+method, args, reply)
}

func must[T any](result T, err error) T {
	check(err)
	return result
}

func check(err error) {
	if err != nil {
		log.Fatal(err)
	}
}

// start starts the process of a node, and waits until it listens.
func start(id antientropy.Node, mode string) *exec.Cmd {
	process := exec.Command(must(os.Executable()), mode, fmt.Sprint(id))
	process.Stderr = os.Stderr
	must(process.StdinPipe()) // it ends with this process
	check(process.Start())
	for call(id, "State", 0, new(State)) != nil {
		time.Sleep(period)
	}
	return process
}

// get returns the versions of a key at a node.
func get(id antientropy.Node, key string) (versions []antientropy.Version, err error) {
	err = call(id, "Get", []byte(key), &versions)
	return versions, err
}

// state returns the state of a node.
func state(id antientropy.Node) (state State) {
	check(call(id, "State", 0, &state))
	return state
}

func main() {
	if len(os.Args) == 3 {
		run(antientropy.Node(must(strconv.Atoi(os.Args[2]))), os.Args[1] == "first")
		return
	}
	time.AfterFunc(20*time.Minute, func() { log.Fatal("the nodes didn't become equal") })
	folder := must(os.MkdirTemp("", "host"))
	defer os.RemoveAll(folder)
	check(os.Chdir(folder))
	one, two := start(1, "first"), start(2, "first")
	acknowledged := map[string]string{} // an empty value is a tombstone's
	put := func(id antientropy.Node, number int, kind antientropy.Kind, value string) error {
		key := fmt.Sprint("key ", number)
		versions, err := get(id, key)
		if err != nil {
			return err
		}
		version := antientropy.Version{Clock: must(antientropy.MergeVersions(versions)), Value: []byte(value), Kind: kind}
		if err := call(id, "Put", Write{[]byte(key), version}, new(antientropy.Receipt)); err != nil {
			return err
		}
		acknowledged[key] = value
		return nil
	}
	for i := 0; i < 50; i++ {
		check(put(antientropy.Node(1+i%2), i, antientropy.Live, "both are up"))
	}
	for i := 100; put(2, i, antientropy.Live, "node 2 is killed") == nil; i++ {
		if i == 107 {
			go two.Process.Kill()
		}
	}
	two.Wait()
	for i := 0; i < 20; i++ {
		check(put(1, i, antientropy.Tombstone, ""))
	}
	for i := 1000; i < 1060; i++ {
		check(put(1, i, antientropy.Live, "node 2 is down"))
	}
	fmt.Println("node 1 keeps hints:", state(1).Hints > 0)
	two = start(2, "again")
	for state(1).Root != state(2).Root || state(1).Hints > 0 {
		time.Sleep(period)
	}
	fmt.Println("node 2 continued a sync after its deadline:", state(2).Late > 0)
	lost := len(acknowledged)
	for key, value := range acknowledged {
		for _, version := range must(get(2, key)) {
			if string(version.Value) == value {
				lost--
				break
			}
		}
	}
	fmt.Println("acknowledged writes lost:", lost)
	check(one.Process.Kill())
	check(two.Process.Kill())
}
