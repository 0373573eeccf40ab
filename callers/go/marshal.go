package dagcbor

import (
	"bytes"
	"encoding"
	"encoding/binary"
	"io"
	"math/big"
	"math/bits"
	"reflect"
	"sort"
	"sync"
	"unicode/utf8"
)

// The most lists and maps that may be around a part, and the most pointers: if there are more, they form a
// ring.
const (
	mostLevels   = 127
	mostPointers = 1000
	tooDeep      = "lists and maps are nested too deep"
)

type writer struct {
	block    []byte
	levels   int  // of lists and maps around
	pointers int  // around
	looks    bool // for the text that is not UTF-8, or the link that is not a CID
	lastType reflect.Type
	lastPlan *plan
}

var writers = sync.Pool{New: func() any { return &writer{} }}

// Marshal returns the one block of the data. It takes what Unmarshal gives to an any, and all sorts of
// integers, slices, arrays, maps, structs as maps, and what pointers point at. Nil pointers, slices and maps
// become null. Keys come in the order of blocks.
//
// An entry of a struct has the name of the tag `dagcbor:"name,omitempty"`, else that of the tag for json,
// else the field's. The rules are json's: for omitempty, omitzero and `-`, and for embedded structs, whose
// fields are entries of the outer one. The option string is refused.
//
// A value with MarshalText becomes its text, also as a key. If a struct shows no field and has no
// MarshalText, it becomes the bytes of its MarshalBinary, or a link if it is a CID of go-cid; else it is
// refused.
func Marshal(value any) ([]byte, error) {
	writer := writers.Get().(*writer)
	if err := writer.marshal(value); err != nil {
		return nil, err // the writer, which may hold values, is not used again
	}
	written := writer.block
	block := make([]byte, len(written)) // of these two lines the compiler makes one that sets no zeros
	copy(block, written)
	writers.Put(writer)
	return block, nil
}

// An Encoder writes blocks one after the other.
type Encoder struct {
	into io.Writer
	err  error // of the writer, which comes again
}

// NewEncoder returns an Encoder, which writes what Marshal would give.
func NewEncoder(into io.Writer) *Encoder { return &Encoder{into: into} }

// Encode writes the block of the data, by one call. If the data has no block it writes nothing.
func (encoder *Encoder) Encode(value any) error {
	if encoder.err != nil {
		return encoder.err
	}
	writer := writers.Get().(*writer)
	if err := writer.marshal(value); err != nil {
		return err
	}
	defer writers.Put(writer)
	_, encoder.err = encoder.into.Write(writer.block)
	return encoder.err
}

// Texts and CIDs are judged with the block. The place of a fault is looked for only if there is one.
func (writer *writer) marshal(value any) error {
	if err := writer.write(value, false); err != nil {
		return err
	}
	code := check(writer.block)
	if code >= 0 {
		return nil
	}
	if err := writer.write(value, true); err != nil {
		return err
	}
	return refused(code, -1)
}

func (writer *writer) write(value any, looks bool) error {
	writer.block, writer.levels, writer.looks = writer.block[:0], 0, looks
	return writer.any(value)
}

// Some types, which data that is read into an any has, are written without reflection.
func (writer *writer) any(value any) error {
	switch it := value.(type) {
	case nil:
		return writer.head(headNull, 0)
	case string:
		return writer.text(it)
	case int64:
		writer.block = appendInteger(writer.block, it)
		return nil
	case int:
		writer.block = appendInteger(writer.block, int64(it))
		return nil
	case bool:
		writer.block = appendBool(writer.block, it)
		return nil
	case map[string]any:
		return writer.anyMap(it)
	case CID:
		return writer.link(it.bytes)
	}
	if of := reflect.TypeOf(value); of != writer.lastType {
		writer.lastType, writer.lastPlan = of, planOf(of)
	}
	return writer.lastPlan.write(writer, reflect.ValueOf(value))
}

// The first byte of a head, without its number.
const (
	headInteger  = 0x00
	headNegative = 0x20
	headBytes    = 0x40
	headString   = 0x60
	headList     = 0x80
	headMap      = 0xa0
	headFalse    = 0xf4
	headNull     = 0xf6
)

func (writer *writer) head(first byte, number uint64) error {
	writer.block = appendHead(writer.block, first, number)
	return nil
}

// For a number in 1 << width bytes eight bytes are put, and those after the first ones cut off: that needs no
// branch for each width.
func appendHead(block []byte, first byte, number uint64) []byte {
	if number < 24 {
		return append(block, first+byte(number))
	}
	width := bits.Len(uint(bits.Len64(number)-1) >> 3)
	block = append(block, first+24+byte(width), 0, 0, 0, 0, 0, 0, 0, 0)
	end := len(block) - 8
	binary.BigEndian.PutUint64(block[end:], number<<(64-8<<width))
	return block[:end+1<<width]
}

func appendText(block []byte, text string) []byte {
	return append(appendHead(block, headString, uint64(len(text))), text...)
}

func appendInteger(block []byte, n int64) []byte {
	sign := n >> 63 // all ones below 0
	return appendHead(block, headNegative&byte(sign), uint64(n^sign))
}

func appendBool(block []byte, it bool) []byte {
	if it {
		return append(block, headFalse+1)
	}
	return append(block, headFalse)
}

func (writer *writer) text(text string) error {
	if writer.looks && !utf8.ValidString(text) {
		return refusedValue("RequireUtf8", "a text that is not UTF-8")
	}
	writer.block = appendText(writer.block, text)
	return nil
}

func (writer *writer) bytes(bytes []byte) error {
	writer.block = append(appendHead(writer.block, headBytes, uint64(len(bytes))), bytes...)
	return nil
}

func (writer *writer) link(cid string) error {
	if cid == "" || writer.looks {
		if _, err := CIDOf([]byte(cid)); err != nil {
			return err
		}
	}
	block := appendHead(append(writer.block, 0xd8, 42), headBytes, uint64(len(cid)+1))
	writer.block = append(append(block, 0), cid...)
	return nil
}

// Begins a list or map. The level is left after its parts.
func (writer *writer) open(first byte, count int) error {
	if writer.levels == mostLevels && count > 0 {
		return refusedValue("DepthOverflow", tooDeep)
	}
	writer.levels++
	return writer.head(first, uint64(count))
}

// An entry of a map: its key, and which it is.
type entry struct {
	key string
	at  int
}

// Entries that are put in the order of blocks.
type entries []entry

func (all entries) Len() int      { return len(all) }
func (all entries) Swap(i, j int) { all[i], all[j] = all[j], all[i] }
func (all entries) Less(i, j int) bool {
	one, other := all[i].key, all[j].key
	return len(one) < len(other) || len(one) == len(other) && one < other
}

func (writer *writer) anyMap(of map[string]any) error {
	if of == nil {
		return writer.head(headNull, 0)
	}
	all, values := make(entries, 0, len(of)), make([]any, 0, len(of))
	for key, value := range of {
		all, values = append(all, entry{key, len(values)}), append(values, value)
	}
	return writer.entries(all, func(at int) error { return writer.any(values[at]) })
}

// Writes a map of the entries, and the value of each.
func (writer *writer) entries(all entries, write func(at int) error) error {
	if err := writer.open(headMap, len(all)); err != nil {
		return err
	}
	sort.Sort(all)
	for i, it := range all {
		if i > 0 && it.key == all[i-1].key {
			return within(it.key, refusedValue("UnorderedKey", "a key is there twice"))
		}
		if err := writer.text(it.key); err != nil {
			return err
		}
		if err := write(it.at); err != nil {
			return within(it.key, err)
		}
	}
	writer.levels--
	return nil
}

// The plan of a leaf that always has its bytes.
func leaf(add func([]byte, reflect.Value) []byte, read func(*reader, item, reflect.Value) error) plan {
	write := func(writer *writer, value reflect.Value) error {
		writer.block = add(writer.block, value)
		return nil
	}
	return plan{add, write, read}
}

func addBool(block []byte, value reflect.Value) []byte { return appendBool(block, value.Bool()) }

func addInt(block []byte, value reflect.Value) []byte { return appendInteger(block, value.Int()) }

func addUint(block []byte, value reflect.Value) []byte {
	return appendHead(block, headInteger, value.Uint())
}

func addText(block []byte, value reflect.Value) []byte { return appendText(block, value.String()) }

func writeString(writer *writer, value reflect.Value) error { return writer.text(value.String()) }

func writeBytes(writer *writer, value reflect.Value) error {
	if value.Kind() == reflect.Slice {
		return writer.bytes(value.Bytes())
	}
	writer.head(headBytes, uint64(value.Len()))
	for i := 0; i < value.Len(); i++ {
		writer.block = append(writer.block, byte(value.Index(i).Uint()))
	}
	return nil
}

func writeInterface(writer *writer, value reflect.Value) error {
	return writer.any(value.Interface())
}

func writeCID(writer *writer, value reflect.Value) error {
	return writer.link(value.Field(0).String())
}

func writeBig(writer *writer, value reflect.Value) error {
	n, first := pointerTo(value).(*big.Int), byte(headInteger)
	if n.Sign() < 0 {
		n, first = new(big.Int).Not(n), headNegative
	}
	if !n.IsUint64() {
		return refusedType("CastOverflow", ofBig, "is not within 64 bits and a sign")
	}
	return writer.head(first, n.Uint64())
}

// Writes a value by its method.
func writesBy[T any](
	put func(*writer, []byte) error, method func(T) ([]byte, error),
) func(*writer, reflect.Value) error {
	return func(writer *writer, value reflect.Value) error {
		bytes, err := bytesBy(value, method)
		if err != nil {
			return err
		}
		return put(writer, bytes)
	}
}

// An item that a method spells is judged by itself, so that it is one item, and no more.
func (writer *writer) item(spelled []byte) error {
	if code := check(spelled); code < 0 {
		return refusedIn(spelled, code)
	}
	writer.block = append(writer.block, spelled...)
	return nil
}

func itemOfStream(it streamMarshaler) ([]byte, error) {
	var spelled bytes.Buffer
	err := it.MarshalCBOR(&spelled)
	return spelled.Bytes(), err
}

func putText(writer *writer, text []byte) error { return writer.text(string(text)) }

func putLink(writer *writer, cid []byte) error { return writer.link(string(cid)) }

func keyString(cid linker) ([]byte, error) { return []byte(cid.KeyString()), nil }

// The bytes that a method of the value gives.
func bytesBy[T any](value reflect.Value, method func(T) ([]byte, error)) ([]byte, error) {
	if !value.CanInterface() {
		return nil, refusedType("Unsupported", value.Type(), notCallable)
	}
	bytes, cause := method(pointerTo(value).(T))
	if cause != nil {
		err := refusedType("Unsupported", value.Type(), "is not written: "+cause.Error())
		err.cause = cause
		return nil, err
	}
	return bytes, nil
}

func pointers(target *plan) plan {
	write := func(writer *writer, value reflect.Value) error {
		if writer.pointers++; writer.pointers > mostPointers {
			return refusedType("DepthOverflow", value.Type(), "points into a ring")
		}
		err := target.write(writer, value.Elem())
		writer.pointers--
		return err
	}
	return plan{write: write, read: readPointer(target)}
}

func lists(part *plan) plan {
	write := func(writer *writer, value reflect.Value) error {
		count := value.Len()
		if err := writer.open(headList, count); err != nil {
			return err
		}
		if err := writer.items(part, value, count); err != nil {
			return err
		}
		writer.levels--
		return nil
	}
	return plan{write: write, read: readList(part)}
}

func (writer *writer) items(part *plan, list reflect.Value, count int) error {
	if part.add != nil && !writer.looks {
		block := writer.block
		for i := 0; i < count; i++ {
			block = part.add(block, list.Index(i))
		}
		writer.block = block
		return nil
	}
	for i := 0; i < count; i++ {
		if err := part.write(writer, list.Index(i)); err != nil {
			return within(i, err)
		}
	}
	return nil
}

// Keys of maps are strings, or have a text.
func (made planner) maps(of reflect.Type) plan {
	isString, pointer := of.Key().Kind() == reflect.String, reflect.PointerTo(of.Key())
	it, part := noPlan("Mismatch", "has keys that are no strings, and have no MarshalText"), made.plan(of.Elem())
	if isString || pointer.Implements(ofText) {
		it.write = writeMap(part)
	}
	if isString || pointer.Implements(fromText) {
		it.read = readMap(isString, part)
	}
	return it
}

func textOfKey(key reflect.Value) (string, error) {
	if key.Kind() == reflect.String {
		return key.String(), nil
	}
	text, err := bytesBy(key, encoding.TextMarshaler.MarshalText)
	return string(text), err
}

func writeMap(part *plan) func(*writer, reflect.Value) error {
	return func(writer *writer, value reflect.Value) error {
		of, count := value.Type(), value.Len()
		key, all := reflect.New(of.Key()).Elem(), make(entries, count)
		values := reflect.MakeSlice(reflect.SliceOf(of.Elem()), count, count)
		for i, left := 0, value.MapRange(); left.Next(); i++ {
			key.SetIterKey(left)
			values.Index(i).SetIterValue(left)
			text, err := textOfKey(key)
			if err != nil {
				return err
			}
			all[i] = entry{text, i}
		}
		return writer.entries(all, func(at int) error { return part.write(writer, values.Index(at)) })
	}
}

// The head of the map is written first, and again if fields are left out.
func writeFields(fields []field) func(*writer, reflect.Value) error {
	return func(writer *writer, value reflect.Value) error {
		start, count := len(writer.block), 0
		writer.block = appendHead(writer.block, headMap, uint64(len(fields)))
		body := len(writer.block)
		writer.levels++
		isFast := writer.levels <= mostLevels && !writer.looks
		for i := range fields {
			field := &fields[i]
			if isFast && field.isPlain {
				writer.block = field.add(append(writer.block, field.key...), value.Field(field.index[0]))
				count++
				continue
			}
			isSent, err := writer.field(field, value)
			if err != nil {
				return within(field.name, err)
			}
			if isSent {
				count++
			}
		}
		writer.levels--
		if count < len(fields) {
			var room [9]byte
			front := writer.block[:start+copy(writer.block[start:], appendHead(room[:0], headMap, uint64(count)))]
			writer.block = append(front, writer.block[body:]...)
		}
		return nil
	}
}

// Writes the field of the struct. Returns true if it is an entry.
func (writer *writer) field(field *field, value reflect.Value) (isSent bool, err error) {
	value, isNil := value.FieldByIndexErr(field.index)
	switch {
	case isNil != nil: // a pointer on the way
		return false, nil
	case field.isLeft != nil && field.isLeft(value):
		return false, nil
	case writer.levels > mostLevels:
		return true, refusedValue("DepthOverflow", tooDeep)
	}
	writer.block = append(writer.block, field.key...)
	return true, field.write(writer, value)
}
