// Outage shows an outage and its repair: two replicas accept writes separately, sync, and merge the key that both
// wrote.
package main

import (
	"context"
	"fmt"
	"log"
	"strings"

	antientropy "example.org/antientropy/go"
)

const (
	nodeA = 1
	nodeB = 2
)

// must ends the program if a call was refused.
func must[T any](result T, err error) T {
	if err != nil {
		log.Fatal(err)
	}
	return result
}

// sync syncs from the partner. Its snapshot is called directly here; in production the messages travel over a network.
func sync(replica, partner *antientropy.Replica, node antientropy.Node) antientropy.Synced {
	snapshot := must(partner.Snapshot())
	defer snapshot.Close()
	offer := must(snapshot.Offer(1))
	return must(replica.Sync(context.Background(), node, offer, func(_ context.Context, asks [][]byte) ([][]byte, error) {
		answers := make([][]byte, len(asks))
		for i, ask := range asks {
			answers[i], _ = snapshot.Serve(1, ask) // nil if it is refused
		}
		return answers, nil
	}))
}

// count formats a number of versions.
func count(number uint64) string {
	if number == 1 {
		return "1 version"
	}
	return fmt.Sprint(number, " versions")
}

// equal returns "yes" if the roots are equal.
func equal(a, b *antientropy.Replica) string {
	if must(a.Root()) == must(b.Root()) {
		return "yes"
	}
	return "no"
}

// values returns the values of a key.
func values(replica *antientropy.Replica, key string) string {
	var values []string
	for _, version := range must(replica.Get([]byte(key))) {
		values = append(values, string(version.Value))
	}
	return strings.Join(values, " | ")
}

func main() {
	config := antientropy.Config{Format: 2, Limit: antientropy.EntriesMax}
	a, b := must(antientropy.NewReplica(config)), must(antientropy.NewReplica(config))
	must(a.Put(nodeA, []byte("order"), []byte("paid"), nil))
	sync(b, a, nodeA)
	must(a.Put(nodeA, []byte("cart"), []byte("milk"), nil))
	must(a.Put(nodeA, []byte("gift"), []byte("wrapped"), nil))
	must(b.Put(nodeB, []byte("cart"), []byte("eggs"), nil))
	fmt.Printf("a has %d keys, b has %d\n", len(must(a.Keys().All())), len(must(b.Keys().All())))
	fmt.Println("roots equal:", equal(a, b))
	fmt.Println("b took", count(sync(b, a, nodeA).Accepted))
	fmt.Println("a took", count(sync(a, b, nodeB).Accepted))
	if values(a, "cart") == values(b, "cart") {
		fmt.Println("cart at both:", values(a, "cart"))
	}
	context := must(antientropy.MergeVersions(must(a.Get([]byte("cart")))))
	must(a.Put(nodeA, []byte("cart"), []byte("milk, eggs"), context))
	sync(b, a, nodeA)
	fmt.Println("merged:", values(b, "cart"))
	fmt.Println("roots equal:", equal(a, b))
}
