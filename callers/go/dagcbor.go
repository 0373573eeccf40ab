// Package dagcbor is DAG-CBOR by a proved library. It judges if bytes are a block, reads what they hold,
// spells data, and reads and writes CAR files.
//
// What this package does by itself is not proved: it reads values from blocks that the library has judged,
// and writes values as bytes that the library then judges. It parses no text of a CID.
//
// It links with the libdagcbor_ffi.a that a release has in lib/, or with that of its repository;
// CGO_LDFLAGS=-L.. may name another folder. A call needs 128 KB of C stack, which goroutines have, and an
// x86-64-v2 or an aarch64.
package dagcbor

/*
#cgo CFLAGS: -I${SRCDIR}/include -I${SRCDIR}/../c -I${SRCDIR}/../../crates/dagcbor_ffi/include
#cgo amd64 LDFLAGS: -L${SRCDIR}/lib/x86_64
#cgo arm64 LDFLAGS: -L${SRCDIR}/lib/aarch64
#cgo LDFLAGS: -L${SRCDIR}/../../crates/dagcbor_ffi/out -ldagcbor_ffi
#include <dagcbor.h>
#include <reasons.h>
*/
import "C"

import (
	"fmt"
	"io"
	"reflect"
	"strings"
	"unicode"
)

// Kind is what an item is.
type Kind int8

// The kinds.
const (
	Null Kind = iota
	Bool
	Integer
	String
	Bytes
	List
	Map
	Link
	negative  // of a head alone: an integer below 0; Integer is then one from 0
	wholeItem // of whatever kind
)

func (kind Kind) String() string { return C.GoString(C.dagcbor_name_of_code(C.int32_t(kind))) }

// Error says why bytes are not a block, a CAR file or a CID, or why a value has no block, or why a block does
// not fit a type.
type Error struct {
	Kind  string       // the reason, such as "NonMinimal"
	Place int64        // for bytes: the offset at which the refusal comes, or MaxInt64 if it is greater; -1 if it is not known
	Path  []any        // for a value: the keys and indices that lead to what has no block, or is not of the type
	Type  reflect.Type // for a value: the type at the path, if it is the reason
	said  string
	cause error
}

func (err *Error) Error() string {
	said := "dagcbor: " + err.said
	if err.Place >= 0 {
		said += fmt.Sprintf(", at %d", err.Place)
	}
	if len(err.Path) > 0 {
		said += ", in " + pathText(err.Path)
	}
	return said
}

// The path, such as .posts[3].createdAt; a key that is not a word is quoted: ["a b"].
func pathText(path []any) string {
	text := ""
	for _, step := range path {
		if key, ok := step.(string); ok && key != "" && strings.IndexFunc(key, isNoLetter) < 0 {
			text += "." + key
		} else {
			text += fmt.Sprintf("[%#v]", step)
		}
	}
	return text
}

func isNoLetter(it rune) bool {
	return !unicode.IsLetter(it) && !unicode.IsDigit(it) && !strings.ContainsRune("$_-", it)
}

// Unwrap returns the error of a value's method, and io.ErrUnexpectedEOF if bytes end too early.
func (err *Error) Unwrap() error {
	if err.Kind == "Eof" || err.Kind == "Truncated" {
		return io.ErrUnexpectedEOF
	}
	return err.cause
}

const (
	notCallable = "is not exported, and so its methods are not called"
	notSet      = "is not exported, and so no pointer to it is set"
)

func refusedValue(kind, said string) *Error {
	return &Error{Kind: kind, Place: -1, Path: []any{}, said: said}
}

func refusedType(kind string, of reflect.Type, said string) *Error {
	return &Error{Kind: kind, Place: -1, Path: []any{}, Type: of, said: of.String() + " " + said}
}

// The error, for a part of a list or map at this step.
func within(step any, err error) error {
	it := err.(*Error)
	it.Path = append([]any{step}, it.Path...)
	return it
}

const trailingData = C.DAGCBOR_TRAILING_DATA

// The error for a number of the library.
func refused(code C.int32_t, place int64) *Error {
	name, said := C.dagcbor_name_of_code(code), C.reason_of_code(code)
	return &Error{Kind: C.GoString(name), Place: place, said: C.GoString(said)}
}

// A pointer that the library takes, even for no bytes.
var none [1]byte

func from(bytes []byte) (*C.uint8_t, C.size_t) {
	if len(bytes) == 0 {
		return (*C.uint8_t)(&none[0]), 0
	}
	return (*C.uint8_t)(&bytes[0]), C.size_t(len(bytes))
}

// Check returns the kind of a block, exactly if the bytes are one.
func Check(block []byte) (Kind, error) {
	code := check(block)
	if code < 0 {
		return 0, refusedIn(block, code)
	}
	return Kind(code), nil
}

func check(block []byte) C.int32_t {
	at, length := from(block)
	return C.dagcbor_check(at, length)
}

// The place at which bytes are refused, or end.
func placeIn(bytes []byte) int {
	var needed, place C.size_t
	var tape C.dagcbor_token
	at, length := from(bytes)
	C.dagcbor_tokens(at, length, &tape, 0, &needed, &place)
	return int(place)
}

func refusedIn(block []byte, code C.int32_t) error { return refused(code, int64(placeIn(block))) }

// Name returns the block's own CID: version 1, DAG-CBOR, by the SHA-256 of the bytes. Any bytes have one.
func Name(block []byte) CID {
	var out [36]byte
	at, length := from(block)
	C.dagcbor_name(at, length, (*C.uint8_t)(&out[0]))
	return CID{string(out[:])}
}

// Links returns the links of the first item, with repeats. What follows the item is not looked at.
func Links(block []byte) ([]CID, error) {
	at, length := from(block)
	packed, code := putInto(256, func(to *room) C.int32_t {
		return C.dagcbor_links(at, length, to.out, to.size, &to.needed)
	})
	if code < 0 {
		return nil, refusedIn(block, code)
	}
	return unpacked(packed), nil
}

// NodeLinks returns the links of a block of DAG-PB, in its order, whatever their names are.
func NodeLinks(node []byte) ([]CID, error) {
	var place C.size_t
	at, length := from(node)
	packed, code := putInto(256, func(to *room) C.int32_t {
		return C.dagcbor_node_links(at, length, to.out, to.size, &to.needed, &place)
	})
	if code < 0 {
		return nil, refused(code, int64(place))
	}
	return unpacked(packed), nil
}

// FromNode returns the data model of a block of DAG-PB, as a block of DAG-CBOR: a map of Links and, if the
// node has some, Data. Each link is a map of Hash, and of Name and Tsize if it has them. Unmarshal reads it
// into a struct. A node with a name that is not UTF-8 has no data model: "NameNotText".
func FromNode(node []byte) ([]byte, error) {
	var place C.size_t
	at, length := from(node)
	block, code := putInto(2*len(node)+64, func(to *room) C.int32_t {
		return C.dagcbor_from_node(at, length, to.out, to.size, &to.needed, &place)
	})
	switch {
	case code == C.DAGCBOR_NAME_NOT_TEXT:
		return nil, refused(code, -1)
	case code < 0:
		return nil, refused(code, int64(place))
	}
	return block, nil
}

// ToNode returns the one canonical block of DAG-PB whose data model a block of DAG-CBOR has, as Marshal
// writes it. Links that are not sorted by the bytes of their names are refused: "UnsortedLinks".
func ToNode(block []byte) ([]byte, error) {
	at, length := from(block)
	node, code := putInto(len(block), func(to *room) C.int32_t {
		return C.dagcbor_to_node(at, length, to.out, to.size, &to.needed)
	})
	switch {
	case code < C.DAGCBOR_NO_ROOM:
		return nil, refused(code, -1)
	case code < 0:
		return nil, refusedIn(block, code)
	}
	return node, nil
}

// Room for what a call puts, and how much room that needs.
type room struct {
	out          *C.uint8_t
	size, needed C.size_t
}

// The bytes that a call puts into room, which has this size at first.
func putInto(length int, call func(*room) C.int32_t) ([]byte, C.int32_t) {
	for {
		bytes := make([]byte, length+1)
		to := room{out: (*C.uint8_t)(&bytes[0]), size: C.size_t(len(bytes))}
		code := call(&to)
		if to.needed <= to.size {
			return bytes[:to.needed], code
		}
		length = int(to.needed)
	}
}

// The packed CIDs: each with a byte of its length before it.
func unpacked(packed []byte) (found []CID) {
	for len(packed) > 0 {
		end := 1 + int(packed[0])
		found, packed = append(found, CID{string(packed[1:end])}), packed[end:]
	}
	return found
}
