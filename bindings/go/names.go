package antientropy

import "strconv"

// nameOf returns the name of a number that counts from 0.
func nameOf(number uint64, names ...string) string {
	if number < uint64(len(names)) {
		return names[number]
	}
	return strconv.FormatUint(number, 10)
}
