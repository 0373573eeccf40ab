package dagcbor

/*
#include <dagcbor.h>
*/
import "C"

import (
	"encoding/binary"
	"io"
	"math"
	"strings"
)

// Verdict is the verdict on the block of a section, in the words of `dagcar check`: "ok map", "refused
// NonMinimal", "not read" if it is of another codec, "not verified", "other bytes".
type Verdict string

// IsVerified returns true if the bytes are those that the CID names.
func (verdict Verdict) IsVerified() bool {
	return verdict != "other bytes" && verdict != "not verified"
}

func verdictOf(code C.int32_t) Verdict {
	name := C.GoString(C.dagcbor_name_of_code(code))
	switch {
	case code == C.DAGCBOR_NOT_READ:
		return "not read"
	case code == C.DAGCBOR_OTHER_BYTES:
		return "other bytes"
	case code == C.DAGCBOR_NOT_VERIFIED:
		return "not verified"
	case code < 0:
		return Verdict("refused " + name)
	}
	return Verdict("ok " + name)
}

// Verify returns nil if the bytes are those that the CID names. Else it returns an Error: of the kind
// OtherBytes if they are others, and NotVerified if the hash function of the CID is not known. Check says if
// they are a block.
func Verify(cid CID, block []byte) error {
	if code := judged(cid, block); code <= C.DAGCBOR_OTHER_BYTES {
		return refused(code, -1)
	}
	return nil
}

func judged(cid CID, block []byte) C.int32_t {
	name, size := from(cid.Bytes())
	at, length := from(block)
	return C.dagcbor_verify(name, size, at, length)
}

// Section is a name of a CAR file, and the bytes that stand after it.
type Section struct {
	CID     CID
	Block   []byte
	Verdict Verdict
}

// CARReader gives the sections of a CAR file (version 1 or 2) one at a time. At most one is in memory, and no
// memory is reserved from a length that the file announces.
type CARReader struct {
	// If SHA256 is set before Next, it computes the digests, and is trusted: sha256.Sum256 of crypto/sha256
	// is faster than the library's own.
	SHA256 func([]byte) [32]byte

	input // from the walk's place on
	walk  C.dagcbor_car_walk
	roots []CID
}

// NewCARReader reads the header.
func NewCARReader(reader io.Reader) (*CARReader, error) {
	car := &CARReader{input: input{reader: reader}}
	code, _, header, err := car.part(0)
	if err != nil {
		return nil, err
	}
	if code < 0 {
		it := refused(code, told(car.walk.place))
		it.Kind, it.said = "NoBlock", "the header is no block: "+it.said
		return nil, it
	}
	car.roots, err = Links(header)
	return car, err
}

// Roots returns the roots of the header.
func (car *CARReader) Roots() []CID { return car.roots }

// Place returns the offset of the next section.
func (car *CARReader) Place() uint64 { return uint64(car.walk.place) }

// Next returns the next section, which is the caller's own. At the end of the file the error is io.EOF. If
// the bytes are not a CAR file it is an Error, which comes again in each later call.
func (car *CARReader) Next() (Section, error) {
	var how C.uint32_t
	if car.SHA256 != nil {
		how = C.DAGCBOR_CAR_UNJUDGED
	}
	code, name, block, err := car.part(how)
	if err != nil {
		return Section{}, err
	}
	cid := CID{string(name)}
	if code == C.DAGCBOR_CAR_SECTION {
		code = car.judged(cid, block)
	}
	return Section{cid, append([]byte{}, block...), verdictOf(code)}, nil
}

// The number of the header or the section that comes next, what stands before its block, and the
// block. Both lie in what is read.
func (car *CARReader) part(how C.uint32_t) (code C.int32_t, front, block []byte, err error) {
	for car.err == nil || car.err == io.EOF {
		if car.err == io.EOF {
			how |= C.DAGCBOR_CAR_LAST
		}
		var places [3]C.size_t
		before := car.walk.place
		at, length := from(car.left)
		code = C.dagcbor_car_next(&car.walk, at, length, how, &places[0])
		front, block = car.left[places[0]:places[1]], car.left[places[1]:places[2]]
		moved := uint64(car.walk.place - before)
		car.pass(moved)
		switch {
		case code == C.DAGCBOR_CAR_END:
			return code, nil, nil, io.EOF
		case code <= C.DAGCBOR_TRUNCATED:
			car.err = refused(code, told(car.walk.place))
		case code != C.DAGCBOR_CAR_MORE:
			return code, front, block, nil
		case moved == 0:
			car.fill()
		}
	}
	return 0, nil, nil, car.err
}

// The number of the verdict. If SHA256 finds that a block of DAG-CBOR or raw bytes is the one that its CID
// names, the digest is not computed again.
func (car *CARReader) judged(cid CID, block []byte) C.int32_t {
	isRaw := strings.HasPrefix(cid.bytes, "\x01\x55\x12\x20")
	if isRaw || strings.HasPrefix(cid.bytes, "\x01\x71\x12\x20") {
		switch sum := car.SHA256(block); {
		case string(sum[:]) != cid.bytes[4:]:
		case isRaw:
			return C.DAGCBOR_NOT_READ
		default:
			return check(block)
		}
	}
	return judged(cid, block)
}

// A place, as an Error tells it.
func told(place C.uint64_t) int64 {
	if place > math.MaxInt64 {
		return math.MaxInt64
	}
	return int64(place)
}

// CARWriter writes a CAR file (version 1), each block as it comes.
type CARWriter struct {
	writer io.Writer
	err    error // of the writer, which comes again: a part of a section may be written
}

// NewCARWriter writes the header.
func NewCARWriter(writer io.Writer, roots []CID) (*CARWriter, error) {
	header, err := Marshal(map[string]any{"roots": append([]CID{}, roots...), "version": 1})
	if err != nil {
		return nil, err
	}
	car := &CARWriter{writer: writer}
	return car, car.put(nil, header)
}

// Write writes a block under its name, and returns its verdict. If the bytes are not those of the CID it
// refuses them before they are written: an Error of the kind OtherBytes.
func (car *CARWriter) Write(cid CID, block []byte) (Verdict, error) {
	code := judged(cid, block)
	if code == C.DAGCBOR_OTHER_BYTES || code == C.DAGCBOR_INVALID_CID {
		return "", refused(code, -1)
	}
	return verdictOf(code), car.put(cid.Bytes(), block)
}

// Writes both, with their length before them.
func (car *CARWriter) put(name, block []byte) error {
	front := binary.AppendUvarint(nil, uint64(len(name)+len(block)))
	if car.err == nil {
		_, car.err = car.writer.Write(append(front, name...))
	}
	if car.err == nil {
		_, car.err = car.writer.Write(block)
	}
	return car.err
}
