package antientropy

import (
	"bufio"
	"encoding/binary"
	"errors"
	"fmt"
	"io"
)

// A checkpoint is a head, and then the rows of each leaf with their length. See docs/FORMATS.md.
const checkpointMagic = "antient\x01"

// A checkpointHead has the fields before the rows.
type checkpointHead struct {
	Magic  [len(checkpointMagic)]byte
	Format uint8
	Bits   uint8
	Range  uint16
	Root   Root
}

// Save writes a checkpoint of the current rows (docs/FORMATS.md). It returns the number of the first entry after the
// checkpoint: a log continues there. The caller syncs the file to its disk. An error is a refusal, or wraps the file's.
func (r *Replica) Save(file io.Writer) (entries uint64, err error) {
	snapshot, err := r.Snapshot()
	if err != nil {
		return 0, err
	}
	defer snapshot.Close()
	return snapshot.Entries(), snapshot.Save(file)
}

// Save writes a checkpoint of the rows (docs/FORMATS.md). An error is a refusal, or wraps the file's.
func (s *Snapshot) Save(file io.Writer) error {
	root, err := s.Root()
	if err != nil {
		return err
	}
	head := checkpointHead{Format: s.config.Format, Bits: s.config.Bits, Range: s.config.Range, Root: root}
	copy(head.Magic[:], checkpointMagic)
	out := bufio.NewWriter(file)
	if err := binary.Write(out, binary.BigEndian, head); err != nil {
		return unwritten(err)
	}
	for leaf := 0; leaf < leavesOf(head.Format); leaf++ {
		if err := s.saveLeaf(out, uint16(leaf)); err != nil {
			return err
		}
	}
	return unwritten(out.Flush())
}

func (s *Snapshot) saveLeaf(out io.Writer, leaf uint16) error {
	rows, err := s.Rows(leaf)
	if err != nil {
		return err
	}
	if err := binary.Write(out, binary.BigEndian, uint64(len(rows))); err != nil {
		return unwritten(err)
	}
	_, err = out.Write(rows)
	return unwritten(err)
}

// unwritten wraps the error of a write to a file: nil for nil.
func unwritten(err error) error {
	if err == nil {
		return nil
	}
	return fmt.Errorf("antientropy: the checkpoint can't be written: %w", err)
}

// unread wraps the error of a read of a file.
func unread(err error) error {
	return fmt.Errorf("antientropy: the checkpoint can't be read: %w", err)
}

// Load returns a new replica with the rows of a checkpoint, and a journal of at most limit entries, numbered from 0.
// Accept the logged entries, and save again.
//
// The root detects damage, but not a forged file. Compare [Replica.Config] with the configuration. An error wraps the
// file's, is a [Damage], or a refusal: [ErrBadRing] (the file's bits or range, or the limit) or [ErrJournalFull].
func Load(file io.Reader, limit uint64) (*Replica, error) {
	in := bufio.NewReader(file)
	var head checkpointHead
	if err := readField(in, &head); err != nil {
		return nil, err
	}
	leaves := leavesOf(head.Format)
	if string(head.Magic[:]) != checkpointMagic || leaves == 0 {
		return nil, &Damage{Kind: DamageNotCheckpoint}
	}
	r, err := NewReplica(Config{Format: head.Format, Bits: head.Bits, Range: head.Range, Limit: limit})
	if err != nil {
		return nil, err
	}
	if err := r.loadLeaves(in, leaves, head.Root); err != nil {
		r.Close()
		return nil, err
	}
	return r, nil
}

// leavesOf returns the number of leaves in a format: 0 for an unknown format.
func leavesOf(format uint8) int {
	switch format {
	case 1:
		return Leaves1
	case 2:
		return Leaves2
	default:
		return 0
	}
}

// loadLeaves loads the rows of all leaves to the end of the file, whose root they must have.
func (r *Replica) loadLeaves(in *bufio.Reader, leaves int, root Root) error {
	for leaf := 0; leaf < leaves; leaf++ {
		if err := r.loadLeaf(in, leaf); err != nil {
			return err
		}
	}
	if _, err := in.ReadByte(); err == nil {
		return &Damage{Kind: DamageTooLong}
	} else if !errors.Is(err, io.EOF) {
		return unread(err)
	}
	loaded, err := r.Root()
	if err == nil && loaded != root {
		err = &Damage{Kind: DamageRoot}
	}
	return err
}

func (r *Replica) loadLeaf(in io.Reader, leaf int) error {
	rows, err := readRows(in)
	if err != nil || len(rows) == 0 {
		return err
	}
	_, err = r.LoadRows(rows)
	for _, cause := range []Refusal{ErrRowBroken, ErrOtherRange, ErrCrowded} {
		if errors.Is(err, cause) {
			return &Damage{Kind: DamageLeaf, Leaf: uint16(leaf)}
		}
	}
	return err
}

// readRows reads a length, and that number of bytes. A damaged length may be huge, so the memory grows with the bytes
// in the file.
func readRows(in io.Reader) ([]byte, error) {
	var length uint64
	if err := readField(in, &length); err != nil {
		return nil, err
	}
	rows, err := io.ReadAll(io.LimitReader(in, int64(length)))
	if err != nil {
		return nil, unread(err)
	}
	if uint64(len(rows)) != length {
		return nil, &Damage{Kind: DamageTruncated}
	}
	return rows, nil
}

// readField reads a number, or a struct of numbers.
func readField(in io.Reader, field any) error {
	err := binary.Read(in, binary.BigEndian, field)
	if errors.Is(err, io.EOF) || errors.Is(err, io.ErrUnexpectedEOF) {
		return &Damage{Kind: DamageTruncated}
	}
	if err != nil {
		return unread(err)
	}
	return nil
}
