package antientropy

import (
	"errors"
	"fmt"
)

// ErrDamaged is the cause in an error of [Load] if the file isn't a whole checkpoint. The error is a [Damage].
var ErrDamaged = errors.New("antientropy: the checkpoint is damaged")

// A DamageKind is a kind of damage of a checkpoint.
type DamageKind uint8

// Kinds of damage.
const (
	DamageNotCheckpoint DamageKind = iota // the file doesn't begin like a checkpoint
	DamageTruncated                       // the file ends early, or a length in it is damaged
	DamageTooLong                         // bytes follow the last leaf
	DamageRoot                            // the rows' root differs from the file's
	DamageLeaf                            // the rows of a leaf are refused
)

// String returns the name of the kind.
func (k DamageKind) String() string {
	return nameOf(uint64(k), "NotCheckpoint", "Truncated", "TooLong", "Root", "Leaf")
}

// A Damage is the damage of a checkpoint, as an error of [Load]: find it by [errors.As].
type Damage struct {
	Kind DamageKind
	Leaf uint16 // number of the leaf whose rows are refused; 0 for other kinds
}

// Error returns the kind of the damage in words.
func (d *Damage) Error() string {
	return fmt.Sprintf("%v: %s", ErrDamaged, d.words())
}

// Unwrap returns [ErrDamaged].
func (d *Damage) Unwrap() error {
	return ErrDamaged
}

func (d *Damage) words() string {
	switch d.Kind {
	case DamageNotCheckpoint:
		return "it doesn't begin as a checkpoint does"
	case DamageTruncated:
		return "it is truncated, or a length in it is damaged"
	case DamageTooLong:
		return "bytes follow its last leaf"
	case DamageRoot:
		return "its root differs"
	default:
		return fmt.Sprintf("the rows of leaf %d are refused", d.Leaf)
	}
}
