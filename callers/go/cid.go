package dagcbor

/*
#include <dagcbor.h>
*/
import "C"

import "encoding/binary"

// CID is the name of a block. It is a key of maps, and its zero value names nothing.
type CID struct{ bytes string }

// ParseCID reads a text: Qm.. for version 0, and one with b, B, z or f first for version 1.
func ParseCID(text string) (CID, error) {
	at, length := from([]byte(text))
	bytes, code := putInto(C.DAGCBOR_CID_MOST, func(to *room) C.int32_t {
		return C.dagcbor_cid_from_text(at, length, to.out, to.size, &to.needed)
	})
	if code < 0 {
		return CID{}, refused(code, -1)
	}
	return CID{string(bytes)}, nil
}

// CIDOf reads the binary form.
func CIDOf(bytes []byte) (CID, error) {
	if _, code := textOf(bytes); code < 0 {
		return CID{}, refused(code, -1)
	}
	return CID{string(bytes)}, nil
}

func textOf(cid []byte) ([]byte, C.int32_t) {
	at, length := from(cid)
	return putInto(C.DAGCBOR_CID_TEXT_MOST, func(to *room) C.int32_t {
		return C.dagcbor_cid_text(at, length, to.out, to.size, &to.needed)
	})
}

// NewCID makes a CID of version 1, from a codec, a hash function and a digest.
func NewCID(codec, hashCode uint64, digest []byte) (CID, error) {
	bytes := []byte{1}
	for _, number := range []uint64{codec, hashCode, uint64(len(digest))} {
		bytes = binary.AppendUvarint(bytes, number)
	}
	return CIDOf(append(bytes, digest...))
}

// Defined returns true for a CID, and false for the zero value.
func (cid CID) Defined() bool { return cid.bytes != "" }

// Bytes returns the binary form.
func (cid CID) Bytes() []byte { return []byte(cid.bytes) }

// String returns the text: Qm.. for version 0, and base32 after b for version 1.
func (cid CID) String() string {
	text, _ := textOf(cid.Bytes())
	return string(text) // none of the zero value
}

// Version returns 0 or 1.
func (cid CID) Version() uint64 { return cid.parts()[0] }

// Codec returns the codec of the block: 0x71 is DAG-CBOR.
func (cid CID) Codec() uint64 { return cid.parts()[1] }

// HashCode returns the hash function: 0x12 is SHA-256.
func (cid CID) HashCode() uint64 { return cid.parts()[2] }

// Digest returns the digest, without its length.
func (cid CID) Digest() []byte { return []byte(cid.bytes[cid.parts()[3]:]) }

// The version, the codec, the hash function, and where the digest begins.
func (cid CID) parts() (parts [4]uint64) {
	if cid.bytes == "" {
		return
	}
	if cid.bytes[0] == 0x12 {
		return [4]uint64{0, 0x70, 0x12, 2}
	}
	at := 0
	for i := range parts {
		number, count := binary.Uvarint([]byte(cid.bytes[at:]))
		parts[i], at = number, at+count
	}
	parts[3] = uint64(at)
	return
}

// MarshalText does what String does, so that a CID is a text in JSON.
func (cid CID) MarshalText() ([]byte, error) { return []byte(cid.String()), nil }

// UnmarshalText does what ParseCID does. An empty text gives the zero value.
func (cid *CID) UnmarshalText(text []byte) (err error) {
	*cid = CID{}
	if len(text) > 0 {
		*cid, err = ParseCID(string(text))
	}
	return
}
