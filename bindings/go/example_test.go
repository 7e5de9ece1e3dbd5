package antientropy_test

import (
	"bytes"
	"context"
	"errors"
	"fmt"

	antientropy "example.org/antientropy/go"
)

func ExampleReplica_Put() {
	replica, err := antientropy.NewReplica(antientropy.Config{Format: 2, Limit: antientropy.EntriesMax})
	if err != nil {
		fmt.Println(err)
		return
	}
	defer replica.Close()
	receipt, err := replica.Put(1, []byte("cart"), []byte("milk"), nil)
	fmt.Println(receipt.Number, receipt.Counter, err)
	_, err = replica.Put(1, []byte("cart"), []byte("eggs"), nil)
	if errors.Is(err, antientropy.ErrStaleContext) {
		fmt.Println("read, merge the clocks, and put again")
	}
	versions, err := replica.Get([]byte("cart"))
	fmt.Println(len(versions), string(versions[0].Value), versions[0].Clock, err)
	// Output:
	// 0 1 <nil>
	// read, merge the clocks, and put again
	// 1 milk [{1 1}] <nil>
}

func ExampleReplica_Sync() {
	a, b := filled(3), newReplica()
	offered := must(a.Snapshot())
	reach := func(_ context.Context, asks [][]byte) ([][]byte, error) {
		answers := make([][]byte, len(asks))
		for i, ask := range asks {
			answers[i], _ = offered.Serve(7, ask) // nil if it is refused
		}
		return answers, nil
	}
	synced, err := b.Sync(context.Background(), 1, must(offered.Offer(7)), reach)
	fmt.Println(synced.Accepted, synced.Report, err)
	// Output: 3 Finished <nil>
}

func ExampleReplica_Keys() {
	keys := filled(2).Keys()
	for keys.Next() {
		fmt.Println(string(keys.Item()))
	}
	if err := keys.Err(); err != nil {
		fmt.Println(err)
	}
	// Unordered output:
	// key 0
	// key 1
}

func ExampleReplica_Save() {
	replica := filled(3)
	var file bytes.Buffer
	logged, err := replica.Save(&file)
	fmt.Println(logged, err)
	loaded, err := antientropy.Load(&file, antientropy.EntriesMax)
	fmt.Println(must(loaded.Root()) == must(replica.Root()), err)
	// Output:
	// 3 <nil>
	// true <nil>
}

func ExampleMerge() {
	first := antientropy.Clock{{Node: 1, Counter: 1}, {Node: 2, Counter: 5}}
	merged, err := antientropy.Merge(first, antientropy.Clock{{Node: 1, Counter: 3}})
	fmt.Println(merged, err)
	// Output: [{1 3} {2 5}] <nil>
}

func ExampleHints() {
	hints := must(antientropy.NewHints())
	must(hints.Keep(2, []byte("cart"), antientropy.Version{
		Clock: antientropy.Clock{{Node: 1, Counter: 1}},
		Value: []byte("tea"),
	}))
	owner := newReplica()
	pending := hints.Pending(2)
	for pending.Next() {
		hint := pending.Item()
		accepted, err := owner.Accept(hint.Key, hint.Version)
		if err != nil {
			break
		}
		check(hints.Confirm(hint.Number, !accepted)) // after the owner has the version on its disk
	}
	fmt.Printf("%+v\n", must(hints.Stats()))
	// Output: {Pending:0 Delivered:1}
}

func ExampleSlots() {
	slots := must(antientropy.NewSlots(1, 4, 10_000))
	check(slots.Sample(1_000, 25_000))
	micros, found, err := slots.Adjust(2_000)
	fmt.Println(micros, found, err)
	fmt.Printf("%+v\n", must(slots.Stats()))
	// Output:
	// 25000 true <nil>
	// {Target:2 Lent:0 Free:2}
}
