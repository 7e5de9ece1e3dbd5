package antientropy

// #include "calls.h"
import "C"

import (
	"sync"
	"unsafe"
)

const (
	// roomLen is the size of a new buffer in bytes. A longer result needs a second call.
	roomLen = 4 << 10
	// roomKept is the maximum size in bytes of a buffer that is kept for the next call.
	roomKept = 128 << 10
	// recordLen is the size of a record in bytes, without the bytes that follow it.
	recordLen = C.sizeof_struct_antientropy_go_record
)

// (a buffer that is too short for the calls of calls.h doesn't compile)
const _ = uint(roomLen - C.ANTIENTROPY_GO_ROOM_MIN)

// A roomCall is a call that writes bytes. It gets the address and the length of a buffer, and the address for the
// length that it needs.
type roomCall func(out *C.uint8_t, outLen C.size_t, need *C.uint64_t) C.uint32_t

// A room is a buffer for the result of a call. One call uses it at a time.
type room struct {
	bytes []byte
	need  C.uint64_t
}

// rooms has the buffers that no call uses. Goroutines read a handle concurrently, so a handle has no single buffer.
var rooms = sync.Pool{New: func() any { return new(room) }}

// takeRoom returns a buffer, which the caller gives back.
func takeRoom() *room {
	return rooms.Get().(*room)
}

// giveBack gives a buffer back. After that the caller mustn't use its bytes.
func (r *room) giveBack() {
	rooms.Put(r)
}

// fill makes a call that writes bytes, and makes it again if the buffer was too small. It returns the bytes in the
// buffer, and the call's number.
func (r *room) fill(call roomCall) ([]byte, C.uint32_t) {
	if r.bytes == nil {
		r.bytes = make([]byte, roomLen)
	}
	bytes := r.bytes
	number := call(bytesAt(bytes), C.size_t(len(bytes)), &r.need)
	if number == C.ANTIENTROPY_SMALL {
		bytes = make([]byte, r.need)
		number = call(bytesAt(bytes), C.size_t(len(bytes)), &r.need)
	}
	if number != C.ANTIENTROPY_OK {
		return nil, number
	}
	if len(bytes) <= roomKept {
		r.bytes = bytes
	}
	return bytes[:r.need], number
}

// copyOf returns the bytes that a call writes, and the call's number.
func copyOf(call roomCall) ([]byte, C.uint32_t) {
	room := takeRoom()
	defer room.giveBack()
	bytes, number := room.fill(call)
	return clone(bytes), number
}

// bytesOf returns the bytes that a call writes.
func bytesOf(call roomCall) ([]byte, error) {
	bytes, number := copyOf(call)
	return bytes, check(number)
}

// bytesIfAny returns the bytes that a call writes, or false if it writes no bytes.
func bytesIfAny(call roomCall) ([]byte, bool, error) {
	bytes, err := bytesOf(call)
	return bytes, len(bytes) > 0, err
}

// bytesIfFound returns the bytes that a call writes, or false if it finds nothing.
func bytesIfFound(call roomCall) ([]byte, bool, error) {
	bytes, number := copyOf(call)
	found, err := isFound(number)
	return bytes, found, err
}

// A record is a version that a call of calls.h wrote to a buffer, with the bytes of its key and its value.
type record struct {
	head       *C.struct_antientropy_go_record
	key, value []byte
}

// firstRecord returns the first record in bytes, and the remaining bytes.
func firstRecord(bytes []byte) (record, []byte) {
	head := (*C.struct_antientropy_go_record)(unsafe.Pointer(&bytes[0]))
	key := recordLen + int(head.key_len)
	value := key + int(head.value_len)
	end := (value + 7) / 8 * 8
	return record{head, bytes[recordLen:key], bytes[key:value]}, bytes[end:]
}

// version returns a copy of the version of a record.
func (r record) version() Version {
	return Version{Clock: clockOf(r.head.clock[:r.head.pairs]), Value: clone(r.value), Kind: Kind(r.head.kind)}
}

// clone returns a copy of bytes: nil for nil.
func clone(bytes []byte) []byte {
	if bytes == nil {
		return nil
	}
	copied := make([]byte, len(bytes))
	copy(copied, bytes)
	return copied
}
