package dagcbor

import (
	"bytes"
	"encoding"
	"io"
	"math/big"
	"reflect"
)

// Unmarshal reads a block into what the pointer points at: what Marshal takes, with structs as maps. An any
// becomes nil, bool, int64, uint64 from 2^63 on, *big.Int below -2^63, string, []byte, []any, map[string]any
// or CID. As in json, it reads into what pointers point at, and puts entries into a map that is there. It
// passes entries that a struct has no field for, and leaves fields without an entry as they are. Null makes
// pointers, slices, maps and interfaces nil, and leaves others as they are. UnmarshalText or UnmarshalBinary
// reads what Marshal writes by MarshalText or MarshalBinary.
//
// If the bytes are a block, but not one of the type, the Error has the kind "Type", and what came before was
// read. After other errors the target is as it was.
func Unmarshal(block []byte, into any) error {
	_, err := unmarshal(block, into, false)
	return err
}

// UnmarshalFirst reads the first item so, and returns the bytes after it, even if the error has the kind
// "Type".
func UnmarshalFirst(bytes []byte, into any) (rest []byte, err error) {
	return unmarshal(bytes, into, true)
}

func unmarshal(bytes []byte, into any, mayFollow bool) (rest []byte, err error) {
	if err := settable(into); err != nil {
		return bytes, err
	}
	end := len(bytes)
	if code := check(bytes); code < 0 {
		end = placeIn(bytes)
		if code != trailingData || !mayFollow {
			return nil, refused(code, int64(end))
		}
	}
	return bytes[end:], (&reader{block: bytes[:end]}).data(into)
}

func settable(into any) error {
	if target := reflect.ValueOf(into); target.Kind() != reflect.Pointer || target.IsNil() {
		return &Error{Kind: "Type", Place: -1, Type: reflect.TypeOf(into), said: "a block is read into a pointer"}
	}
	return nil
}

// What is read from a reader, and not given yet.
type input struct {
	reader io.Reader
	left   []byte
	err    error // of the reader, after what is left
}

// The least number of bytes that are read at once, if the reader has them.
const piece = 1 << 13

// Reads once, into room that doubles.
func (input *input) fill() {
	if count := len(input.left); cap(input.left)-count < piece {
		input.left = append(input.left, make([]byte, count+piece)...)[:count]
	}
	count := 0
	for i := 0; i < 100 && count == 0 && input.err == nil; i++ {
		count, input.err = input.reader.Read(input.left[len(input.left):cap(input.left)])
	}
	if count == 0 && input.err == nil {
		input.err = io.ErrNoProgress
	}
	input.left = input.left[:len(input.left)+count]
}

// Passes this many bytes, as far as the reader has them.
func (input *input) pass(count uint64) {
	for count > uint64(len(input.left)) && input.err == nil {
		count -= uint64(len(input.left))
		input.left = input.left[:0]
		input.fill()
	}
	if held := uint64(len(input.left)); count > held {
		count = held
	}
	input.left = input.left[count:]
}

// A Decoder reads blocks that come one after the other. It may read more than it gives, and keeps it.
type Decoder struct {
	input
	whole    span // of the item at the front of what is left, as far as it is read
	place    int64
	isStrict bool
	refusal  error // of what is left
}

// NewDecoder reads what an Encoder writes.
func NewDecoder(from io.Reader) *Decoder {
	return &Decoder{input: input{reader: from}, whole: span{left: 1}}
}

// DisallowUnknownFields makes it an error, "UnknownField", if a struct has no field for an entry.
func (decoder *Decoder) DisallowUnknownFields() { decoder.isStrict = true }

// Buffered returns what was read, and not given yet. It holds until the next Decode.
func (decoder *Decoder) Buffered() io.Reader { return bytes.NewReader(decoder.left) }

// InputOffset returns where the next block begins.
func (decoder *Decoder) InputOffset() int64 { return decoder.place }

// More returns true if anything follows. It may read.
func (decoder *Decoder) More() bool {
	if len(decoder.left) == 0 && decoder.err == nil {
		decoder.fill()
	}
	return len(decoder.left) > 0
}

// Decode reads the next block as Unmarshal does. At the end the error is io.EOF. After an error of
// the kind "Type" or "UnknownField" the next block comes; others come again. Places are counted from
// the first byte that was read.
func (decoder *Decoder) Decode(into any) error {
	if err := settable(into); err != nil {
		return err
	}
	block, err := decoder.next()
	if err != nil {
		return err
	}
	err = decoder.placed((&reader{block: block, isStrict: decoder.isStrict}).data(into))
	decoder.left, decoder.whole = decoder.left[len(block):], span{left: 1}
	decoder.place += int64(len(block))
	return err
}

// The next block, which the library has judged.
func (decoder *Decoder) next() ([]byte, error) {
	if decoder.refusal != nil {
		return nil, decoder.refusal
	}
	for !decoder.whole.pass(decoder.left) {
		switch {
		case decoder.err == nil:
			decoder.fill()
		case decoder.err == io.EOF && len(decoder.left) > 0:
			decoder.whole = span{at: len(decoder.left)} // of which the library says what is missing
		default:
			return nil, decoder.err
		}
	}
	block := decoder.left[:decoder.whole.at]
	if code := check(block); code < 0 {
		decoder.refusal = decoder.placed(refusedIn(block, code))
	}
	return block, decoder.refusal
}

// The error, with its place counted from the first byte.
func (decoder *Decoder) placed(err error) error {
	if it, ok := err.(*Error); ok {
		it.Place += decoder.place
	}
	return err
}

// A block, which the library has judged, and where in it the next head stands.
type reader struct {
	block    []byte
	at       int
	pointers int // around
	isStrict bool
}

func (reader *reader) data(into any) error {
	target := reflect.ValueOf(into).Elem()
	return planOf(target.Type()).read(reader, reader.next(), target)
}

// By the major type of a head.
var majors = [...]Kind{Integer, negative, Bytes, String, List, Map, Link, Bool}

// The first head of the bytes, and its length: 0 if they end within it, and 1 if its width is invalid.
func headOf(bytes []byte) (kind Kind, number uint64, length int) {
	kind, number, length = majors[bytes[0]>>5], uint64(bytes[0]&31), 1
	if number >= 24 && number < 28 {
		length += 1 << (number - 24)
		if len(bytes) < length {
			return kind, 0, 0
		}
		number = 0
		for _, it := range bytes[1:length] {
			number = number<<8 | uint64(it)
		}
	}
	return kind, number, length
}

func (reader *reader) head() (Kind, uint64) {
	kind, number, length := headOf(reader.block[reader.at:])
	reader.at += length
	return kind, number
}

// An item whose head was read: where it begins, its kind, and its number: for strings, bytes and links how
// many bytes follow.
type item struct {
	start  int
	kind   Kind
	number uint64
}

func (reader *reader) next() item {
	start := reader.at
	kind, number := reader.head()
	switch {
	case kind == Link: // after the tag stand bytes, the first of which is 0
		_, number = reader.head()
		reader.at++
		return item{start, Link, number - 1}
	case kind == Bool && number == 22:
		return item{start, Null, 0}
	case kind == Bool:
		return item{start, Bool, number - 20}
	}
	return item{start, kind, number}
}

func (reader *reader) take(count uint64) []byte {
	start := reader.at
	reader.at += int(count)
	return reader.block[start:reader.at]
}

// How far an item reaches, by its heads alone: where the next one stands, and how many are left.
type span struct {
	at   int
	left uint64
}

// Goes on through the bytes. Returns true if the item ends in them, or if an invalid head stands there.
func (span *span) pass(bytes []byte) bool {
	for span.left > 0 && span.at < len(bytes) {
		kind, number, length := headOf(bytes[span.at:])
		if length == 0 {
			return false
		}
		if bytes[span.at]&31 > 27 {
			span.at++
			return true
		}
		span.at, span.left = span.at+length, span.left-1
		switch kind {
		case String, Bytes:
			span.at += int(capped(number))
		case List:
			span.left = capped(span.left + capped(number))
		case Map:
			span.left = capped(span.left + 2*capped(number))
		case Link:
			span.left++
		}
	}
	return span.left == 0 && span.at <= len(bytes)
}

// The number, or one that is greater than the length of any bytes that are there.
func capped(number uint64) uint64 {
	if number > 1<<60 {
		return 1 << 60
	}
	return number
}

// The length of the next item, with what is in it.
func (reader *reader) length() uint64 {
	whole := span{reader.at, 1}
	whole.pass(reader.block)
	return uint64(whole.at - reader.at)
}

func (reader *reader) text() string {
	_, count := reader.head()
	return string(reader.take(count))
}

// The data of the item: nil, bool, int64, uint64 of 2^63 or more, *big.Int below -2^63, string,
// []byte, []any, map[string]any and CID.
func (reader *reader) value(it item) any {
	switch it.kind {
	case Bool:
		return it.number == 1
	case Integer:
		if it.number < 1<<63 {
			return int64(it.number)
		}
		return it.number
	case negative:
		if it.number < 1<<63 {
			return ^int64(it.number)
		}
		return new(big.Int).Not(new(big.Int).SetUint64(it.number))
	case String:
		return string(reader.take(it.number))
	case Bytes:
		return append([]byte{}, reader.take(it.number)...)
	case Link:
		return CID{string(reader.take(it.number))}
	case List:
		list := make([]any, it.number) // each has a byte at least
		for i := range list {
			list[i] = reader.value(reader.next())
		}
		return list
	case Map:
		entries := make(map[string]any, it.number)
		for ; it.number > 0; it.number-- {
			key := reader.text()
			entries[key] = reader.value(reader.next())
		}
		return entries
	}
	return nil
}

// The error for an item that the type does not take. Null is no error, and leaves the target as it is.
func unfit(it item, into reflect.Value) error {
	if it.kind == Null {
		return nil
	}
	return mismatch(it.start, into.Type(), "does not take this "+it.kind.String())
}

func mismatch(start int, of reflect.Type, said string) *Error {
	err := refusedType("Type", of, said)
	err.Place = int64(start)
	return err
}

func readBool(_ *reader, it item, into reflect.Value) error {
	if it.kind != Bool {
		return unfit(it, into)
	}
	into.SetBool(it.number == 1)
	return nil
}

func readString(reader *reader, it item, into reflect.Value) error {
	if it.kind != String {
		return unfit(it, into)
	}
	into.SetString(string(reader.take(it.number)))
	return nil
}

func readInt(_ *reader, it item, into reflect.Value) error {
	signed := int64(it.number)
	if it.kind == negative {
		signed = ^signed
	}
	if it.kind != Integer && it.kind != negative || it.number >= 1<<63 || into.OverflowInt(signed) {
		return unfit(it, into)
	}
	into.SetInt(signed)
	return nil
}

func readUint(_ *reader, it item, into reflect.Value) error {
	if it.kind != Integer || into.OverflowUint(it.number) {
		return unfit(it, into)
	}
	into.SetUint(it.number)
	return nil
}

func readBig(_ *reader, it item, into reflect.Value) error {
	if it.kind != Integer && it.kind != negative {
		return unfit(it, into)
	}
	n := into.Addr().Interface().(*big.Int).SetUint64(it.number)
	if it.kind == negative {
		n.Not(n)
	}
	return nil
}

func readCID(reader *reader, it item, into reflect.Value) error {
	if it.kind != Link {
		return unfit(it, into)
	}
	*into.Addr().Interface().(*CID) = CID{string(reader.take(it.number))}
	return nil
}

func streamOfItem(into streamUnmarshaler, item []byte) error {
	return into.UnmarshalCBOR(bytes.NewReader(item))
}

// Reads items of the kind by a method of the value, or any item, with its head.
func readsBy[T any](of Kind, method func(T, []byte) error) func(*reader, item, reflect.Value) error {
	return func(reader *reader, it item, into reflect.Value) error {
		if of == wholeItem {
			reader.at = it.start
			it = item{it.start, of, reader.length()}
		}
		switch {
		case it.kind != of:
			return unfit(it, into)
		case !into.CanInterface():
			return mismatch(it.start, into.Type(), notCallable)
		}
		return refusedBy(it.start, into.Type(), method(into.Addr().Interface().(T), reader.take(it.number)))
	}
}

// The error of a value's own method.
func refusedBy(start int, of reflect.Type, cause error) error {
	if cause == nil {
		return nil
	}
	err := mismatch(start, of, "is not read: "+cause.Error())
	err.cause = cause
	return err
}

func readBytes(reader *reader, it item, into reflect.Value) error {
	switch {
	case it.kind == Bytes && into.Kind() == reflect.Slice:
		into.SetBytes(append([]byte{}, reader.take(it.number)...))
	case it.kind == Bytes && into.Len() == int(it.number):
		copy(into.Slice(0, into.Len()).Bytes(), reader.take(it.number))
	default:
		return unfit(it, into)
	}
	return nil
}

// Into what the interface holds, if that is a pointer, as in json.
func readInterface(reader *reader, it item, into reflect.Value) error {
	held := into.Elem()
	switch {
	case held.Kind() == reflect.Pointer && !held.IsNil():
		return planOf(held.Type()).read(reader, it, held)
	case into.NumMethod() > 0:
		return unfit(it, into)
	default:
		into.Set(reflect.ValueOf(reader.value(it)))
	}
	return nil
}

func readPointer(target *plan) func(*reader, item, reflect.Value) error {
	return func(reader *reader, it item, into reflect.Value) error {
		switch {
		case into.IsNil() && !into.CanSet():
			return mismatch(it.start, into.Type().Elem(), notSet)
		case into.IsNil():
			into.Set(reflect.New(into.Type().Elem()))
		}
		if reader.pointers++; reader.pointers > mostPointers {
			return mismatch(it.start, into.Type(), "points into a ring")
		}
		err := target.read(reader, it, into.Elem())
		reader.pointers--
		return err
	}
}

func readList(part *plan) func(*reader, item, reflect.Value) error {
	return func(reader *reader, it item, into reflect.Value) error {
		count := int(it.number)
		switch {
		case it.kind == List && into.Kind() == reflect.Slice:
			into.Set(reflect.MakeSlice(into.Type(), count, count))
		case it.kind != List || into.Len() != count:
			return unfit(it, into)
		}
		for i := 0; i < count; i++ {
			if err := part.read(reader, reader.next(), into.Index(i)); err != nil {
				return within(i, err)
			}
		}
		return nil
	}
}

func readMap(isString bool, part *plan) func(*reader, item, reflect.Value) error {
	return func(reader *reader, it item, into reflect.Value) error {
		of := into.Type()
		switch {
		case it.kind != Map:
			return unfit(it, into)
		case into.IsNil():
			into.Set(reflect.MakeMapWithSize(of, int(it.number)))
		}
		key, value := reflect.New(of.Key()).Elem(), reflect.New(of.Elem()).Elem()
		noKey, none := reflect.Zero(of.Key()), reflect.Zero(of.Elem())
		for ; it.number > 0; it.number-- {
			start := reader.at
			text := reader.text()
			if isString {
				key.SetString(text)
			} else {
				key.Set(noKey)
				cause := key.Addr().Interface().(encoding.TextUnmarshaler).UnmarshalText([]byte(text))
				if err := refusedBy(start, of.Key(), cause); err != nil {
					return within(text, err)
				}
			}
			value.Set(none)
			if err := part.read(reader, reader.next(), value); err != nil {
				return within(text, err)
			}
			into.SetMapIndex(key, value)
		}
		return nil
	}
}

// Fields and entries are both in the order of blocks.
func readFields(all []field) func(*reader, item, reflect.Value) error {
	return func(reader *reader, it item, into reflect.Value) error {
		if it.kind != Map {
			return unfit(it, into)
		}
		for fields := all; it.number > 0; it.number-- {
			start := reader.at
			_, count := reader.head()
			reader.take(count)
			var field *field
			field, fields = fieldOf(reader.block[start:reader.at], fields)
			if err := reader.field(start, field, into); err != nil {
				return err
			}
		}
		return nil
	}
}

// The field of a key, or nil, and those after.
func fieldOf(key []byte, fields []field) (*field, []field) {
	for i := range fields {
		if order := bytes.Compare(fields[i].key, key); order == 0 {
			return &fields[i], fields[i+1:]
		} else if order > 0 {
			return nil, fields[i:]
		}
	}
	return nil, nil
}

// Reads a value, whose key was read, into the field of the struct.
func (reader *reader) field(start int, field *field, into reflect.Value) error {
	if field == nil && reader.isStrict {
		err := mismatch(start, into.Type(), "has no field of this name")
		err.Kind, reader.at = "UnknownField", start
		return within(reader.text(), err)
	}
	if field == nil {
		reader.take(reader.length())
		return nil
	}
	part, unset := field.into(into)
	if unset != nil {
		return within(field.name, mismatch(start, unset, notSet))
	}
	if err := field.read(reader, reader.next(), part); err != nil {
		return within(field.name, err)
	}
	return nil
}
