package antientropy

import (
	"bytes"
	"strings"
	"sync"
	"testing"
)

const guardLen = 64

// guard makes a buffer for the next call, followed by bytes that no call may write. It returns these bytes.
func guard() []byte {
	memory := bytes.Repeat([]byte{0xa5}, roomLen+guardLen)
	rooms = sync.Pool{New: func() any { return &room{bytes: memory[:roomLen:roomLen]} }}
	return memory[roomLen:]
}

func TestNoPointerIsNull(t *testing.T) {
	if bytesAt(nil) == nil || bytesAt([]byte{}) == nil || pairsAt(nil) == nil || pairsAt(Clock{}) == nil {
		t.Error("there is a pointer NULL")
	}
}

// Results of all lengths around a buffer's: the calls write their results, and nothing after the buffer.
func TestResultsAroundTheLengthOfARoom(t *testing.T) {
	defer func() { rooms = sync.Pool{New: func() any { return new(room) }} }()
	for length := roomLen - recordLen - 16; length <= roomLen+16; length++ {
		version := Version{Clock: Clock{{Node: 1, Counter: 1}}, Value: []byte(strings.Repeat("v", length)), Kind: Live}
		r, err := NewReplica(Config{Format: 2, Limit: 1})
		if err != nil {
			t.Fatal(err)
		}
		hints, err := NewHints()
		if err != nil {
			t.Fatal(err)
		}
		if _, err := r.Accept([]byte("key"), version); err != nil {
			t.Fatal(err)
		}
		if _, err := hints.Keep(1, []byte("key"), version); err != nil {
			t.Fatal(err)
		}
		for name, read := range map[string]func() ([]byte, error){
			"Get":   func() ([]byte, error) { read, err := r.Get([]byte("key")); return read[0].Value, err },
			"Entry": func() ([]byte, error) { entry, _, err := r.Entry(0); return entry.Version.Value, err },
			"Hint":  func() ([]byte, error) { hint, _, err := hints.Hint(1); return hint.Version.Value, err },
		} {
			after := guard()
			value, err := read()
			if err != nil || !bytes.Equal(value, version.Value) {
				t.Errorf("%s returns %d of %d bytes, and the error %v", name, len(value), length, err)
			}
			if bytes.Count(after, []byte{0xa5}) != guardLen {
				t.Errorf("%s writes after the room, at %d bytes", name, length)
			}
		}
	}
}

// A buffer for packed entries gets all whole entries that fit. If the first one doesn't fit, a new buffer is made.
func TestRoomsOfPackedEntries(t *testing.T) {
	r, err := NewReplica(Config{Format: 2, Limit: 3})
	if err != nil {
		t.Fatal(err)
	}
	for _, key := range []string{"a", "b", "c"} {
		if _, err := r.Put(1, []byte(key), []byte("value"), nil); err != nil {
			t.Fatal(err)
		}
	}
	const entryLen = 27
	for length := 1; length <= 3*entryLen+8; length++ {
		memory := bytes.Repeat([]byte{0xa5}, length+guardLen)
		packed, err := r.pack(0, memory[:length:length])
		want := length / entryLen
		if want == 0 {
			want = 1
		}
		if want > 3 {
			want = 3
		}
		if err != nil || packed.Next != uint64(want) || len(packed.Bytes) != want*entryLen {
			t.Errorf("in a room of %d bytes there are %d of %d entries, and the error %v", length, packed.Next, want, err)
		}
		if bytes.Count(memory[length:], []byte{0xa5}) != guardLen {
			t.Errorf("bytes are written after a room of %d", length)
		}
	}
}
