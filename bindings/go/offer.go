package antientropy

// #include <antientropy.h>
import "C"

import "unsafe"

// OfferParts are the parts of an offer. Format and range are as received: the ring may not have them.
type OfferParts struct {
	Number uint32 // number that the partner gave the offer
	Format uint8  // format of the partner's tree
	Range  uint16 // number of the partner's range
	Root   Root   // digest of the partner's root
}

// ReadOffer returns the parts of a partner's offer. Refused as [ErrBadMessage] if the bytes aren't an offer.
func ReadOffer(offer []byte) (OfferParts, error) {
	var parts C.struct_antientropy_offer_parts
	if err := check(C.antientropy_read_offer(bytesAt(offer), C.size_t(len(offer)), &parts)); err != nil {
		return OfferParts{}, err
	}
	return OfferParts{
		Number: uint32(parts.number),
		Format: uint8(parts.format),
		Range:  uint16(parts._range),
		Root:   *(*Root)(unsafe.Pointer(&parts.root)),
	}, nil
}
