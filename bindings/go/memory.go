package antientropy

// #include <antientropy.h>
import "C"

import "unsafe"

// nothing is the address of empty bytes and pairs: no pointer may be NULL.
var nothing C.struct_antientropy_pair

// bytesAt returns the address of bytes.
func bytesAt(data []byte) *C.uint8_t {
	if len(data) == 0 {
		return (*C.uint8_t)(unsafe.Pointer(&nothing))
	}
	return (*C.uint8_t)(unsafe.Pointer(&data[0]))
}

// pairsAt returns the address of a clock's pairs. The struct of C has the same fields.
func pairsAt(clock Clock) *C.struct_antientropy_pair {
	if len(clock) == 0 {
		return &nothing
	}
	return (*C.struct_antientropy_pair)(unsafe.Pointer(&clock[0]))
}

// clockOf returns a copy of pairs that a call wrote.
func clockOf(pairs []C.struct_antientropy_pair) Clock {
	clock := make(Clock, len(pairs))
	for i := range pairs {
		clock[i].Node = Node(pairs[i].node)
		clock[i].Counter = uint64(pairs[i].counter)
	}
	return clock
}
