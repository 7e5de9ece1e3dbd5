package antientropy

// A Scanner iterates over items. It reads each item when Next is called:
//
//	keys := replica.Keys()
//	for keys.Next() {
//		use(keys.Item())
//	}
//	if err := keys.Err(); err != nil {
//		return err
//	}
//
// One goroutine at a time uses a scanner. Others may use its replica or hints meanwhile.
type Scanner[T any] struct {
	next func() (T, bool, error)
	item T
	err  error
}

func scan[T any](next func() (T, bool, error)) *Scanner[T] {
	return &Scanner[T]{next: next}
}

// Next reads the next item. It returns false at the end, or if a call was refused.
func (s *Scanner[T]) Next() bool {
	if s.next == nil {
		return false
	}
	var found bool
	if s.item, found, s.err = s.next(); !found {
		s.next = nil
	}
	return found
}

// Item returns the item that Next has read.
func (s *Scanner[T]) Item() T {
	return s.item
}

// Err returns the refusal that ended the scan, or nil.
func (s *Scanner[T]) Err() error {
	return s.err
}

// All returns the remaining items. At a refusal, it returns the items before it with the refusal.
func (s *Scanner[T]) All() ([]T, error) {
	var items []T
	for s.Next() {
		items = append(items, s.Item())
	}
	return items, s.Err()
}
