package dagcbor

import (
	"bytes"
	"encoding"
	"io"
	"math/big"
	"reflect"
	"sort"
	"strings"
	"sync"
	"unicode/utf8"
)

// A plan is how values of a type are written and read. It is made once for each type.
type plan struct {
	add   func([]byte, reflect.Value) []byte // of a leaf that always has its bytes; a text's may be no UTF-8
	write func(*writer, reflect.Value) error
	read  func(*reader, item, reflect.Value) error
}

var (
	plans    sync.Map // of *plan, by type
	planning sync.Mutex
)

func planOf(of reflect.Type) *plan {
	if known, ok := plans.Load(of); ok {
		return known.(*plan)
	}
	planning.Lock()
	defer planning.Unlock()
	made := planner{}
	it := made.plan(of)
	for of, it := range made {
		plans.Store(of, it)
	}
	return it
}

// A planner has the plans that are being made: each may be made of the others, and of itself.
type planner map[reflect.Type]*plan

func (made planner) plan(of reflect.Type) *plan {
	if known, ok := plans.Load(of); ok {
		return known.(*plan)
	}
	if it, ok := made[of]; ok {
		return it
	}
	it := &plan{}
	made[of] = it
	switch {
	case of == ofCID:
		*it = plan{write: writeCID, read: readCID}
	case of == ofBig:
		*it = plan{write: writeBig, read: readBig}
	default:
		*it = made.planOfKind(of)
		switch of.Kind() {
		case reflect.Interface, reflect.Pointer, reflect.Slice, reflect.Map:
			*it = it.orNull()
		}
		if write := methodWriter(of); write != nil {
			it.add, it.write = nil, write
		}
		if read := methodReader(of); read != nil {
			it.read = read
		}
	}
	return it
}

func (made planner) planOfKind(of reflect.Type) plan {
	switch of.Kind() {
	case reflect.Bool:
		return leaf(addBool, readBool)
	case reflect.String:
		return plan{addText, writeString, readString}
	case reflect.Int, reflect.Int8, reflect.Int16, reflect.Int32, reflect.Int64:
		return leaf(addInt, readInt)
	case reflect.Uint, reflect.Uint8, reflect.Uint16, reflect.Uint32, reflect.Uint64:
		return leaf(addUint, readUint)
	case reflect.Interface:
		return plan{write: writeInterface, read: readInterface}
	case reflect.Pointer:
		return pointers(made.plan(of.Elem()))
	case reflect.Slice, reflect.Array:
		if item := of.Elem(); item.Kind() == reflect.Uint8 && methodWriter(item) == nil {
			return plan{write: writeBytes, read: readBytes}
		}
		return lists(made.plan(of.Elem()))
	case reflect.Map:
		return made.maps(of)
	case reflect.Struct:
		return made.structs(of)
	case reflect.Float32, reflect.Float64:
		return noPlan("Unsupported", "is not written: floats are left out of these blocks")
	}
	return noPlan("Unsupported", "is none of the types of data")
}

// The plan of a type whose values may be nil, which becomes null.
func (of plan) orNull() plan {
	write := func(writer *writer, value reflect.Value) error {
		if value.IsNil() {
			return writer.head(headNull, 0)
		}
		return of.write(writer, value)
	}
	read := func(reader *reader, it item, into reflect.Value) error {
		if it.kind == Null && into.CanSet() {
			into.Set(reflect.Zero(into.Type()))
			return nil
		}
		return of.read(reader, it, into)
	}
	return plan{write: write, read: read}
}

// The plan of a type that is neither written nor read.
func noPlan(kind, said string) plan {
	write := func(_ *writer, value reflect.Value) error { return refusedType(kind, value.Type(), said) }
	read := func(_ *reader, it item, into reflect.Value) error {
		if it.kind == Null {
			return nil
		}
		return mismatch(it.start, into.Type(), said)
	}
	return plan{write: write, read: read}
}

// A CID of github.com/ipfs/go-cid.
type linker interface {
	KeyString() string
	encoding.BinaryUnmarshaler
}

// Marshaler is a value that spells its own item, as in fxamacker/cbor: one block by itself.
type Marshaler interface{ MarshalCBOR() ([]byte, error) }

// Unmarshaler is a value that reads its own item, whatever that is, also null. The bytes are lent.
type Unmarshaler interface{ UnmarshalCBOR(item []byte) error }

// The same, as whyrusleeping/cbor-gen makes them.
type streamMarshaler interface{ MarshalCBOR(io.Writer) error }
type streamUnmarshaler interface{ UnmarshalCBOR(io.Reader) error }

// A value that says itself if the option omitzero leaves it out.
type zeroer interface{ IsZero() bool }

// RawMessage is an item as it is spelled. It is written as it stands, or as null if it is nil.
type RawMessage []byte

// MarshalCBOR returns the bytes.
func (raw RawMessage) MarshalCBOR() ([]byte, error) {
	if raw == nil {
		return []byte{headNull}, nil
	}
	return raw, nil
}

// UnmarshalCBOR copies the bytes.
func (raw *RawMessage) UnmarshalCBOR(item []byte) error {
	*raw = append(RawMessage{}, item...)
	return nil
}

var (
	ofCID      = reflect.TypeOf(CID{})
	ofBig      = reflect.TypeOf(big.Int{})
	ofLinker   = typeOf[linker]()
	ofItem     = typeOf[Marshaler]()
	ofStream   = typeOf[streamMarshaler]()
	ofText     = typeOf[encoding.TextMarshaler]()
	ofBinary   = typeOf[encoding.BinaryMarshaler]()
	ofZeroer   = typeOf[zeroer]()
	fromItem   = typeOf[Unmarshaler]()
	fromStream = typeOf[streamUnmarshaler]()
	fromText   = typeOf[encoding.TextUnmarshaler]()
	fromBytes  = typeOf[encoding.BinaryUnmarshaler]()
)

func typeOf[T any]() reflect.Type { return reflect.TypeOf((*T)(nil)).Elem() }

// How a type is written by its own methods, or those of a pointer to it. As in json, MarshalText is asked. If
// a struct shows no field (json writes it as {}), a CID of go-cid is a link, and others are bytes by
// MarshalBinary.
func methodWriter(of reflect.Type) func(*writer, reflect.Value) error {
	pointer, shows := reflect.PointerTo(of), showsFields(of)
	switch {
	case pointer.Implements(ofItem):
		return writesBy((*writer).item, Marshaler.MarshalCBOR)
	case pointer.Implements(ofStream):
		return writesBy((*writer).item, itemOfStream)
	case pointer.Implements(ofLinker) && !shows:
		return writesBy(putLink, keyString)
	case pointer.Implements(ofText):
		return writesBy(putText, encoding.TextMarshaler.MarshalText)
	case pointer.Implements(ofBinary) && !shows:
		return writesBy((*writer).bytes, encoding.BinaryMarshaler.MarshalBinary)
	}
	return nil
}

func methodReader(of reflect.Type) func(*reader, item, reflect.Value) error {
	pointer, shows := reflect.PointerTo(of), showsFields(of)
	switch {
	case pointer.Implements(fromItem):
		return readsBy(wholeItem, Unmarshaler.UnmarshalCBOR)
	case pointer.Implements(fromStream):
		return readsBy(wholeItem, streamOfItem)
	case pointer.Implements(ofLinker) && !shows:
		return readsBy(Link, encoding.BinaryUnmarshaler.UnmarshalBinary)
	case pointer.Implements(fromText):
		return readsBy(String, encoding.TextUnmarshaler.UnmarshalText)
	case pointer.Implements(fromBytes) && !shows:
		return readsBy(Bytes, encoding.BinaryUnmarshaler.UnmarshalBinary)
	}
	return nil
}

// A field of a struct that is an entry of its map.
type field struct {
	*plan
	of       reflect.Type
	name     string
	key      []byte // the name as a block has it
	index    []int  // of the embedded structs that it is in, and its own
	isTagged bool
	isPlain  bool                     // of the struct itself, never left out, and always with its bytes
	isLeft   func(reflect.Value) bool // out of a block; nil of one that never is
	refusal  string
}

// The field to be set, after pointers that are nil are set; or the type of a pointer that is not exported,
// and so cannot be set.
func (field *field) into(value reflect.Value) (reflect.Value, reflect.Type) {
	for depth, at := range field.index {
		if depth > 0 && value.Kind() == reflect.Pointer {
			switch {
			case value.IsNil() && !value.CanSet():
				return value, value.Type().Elem()
			case value.IsNil():
				value.Set(reflect.New(value.Type().Elem()))
			}
			value = value.Elem()
		}
		value = value.Field(at)
	}
	return value, nil
}

func (made planner) structs(of reflect.Type) plan {
	fields, hides := fieldsOf(of)
	for i := range fields {
		if fields[i].refusal != "" {
			return noPlan("Unsupported", fields[i].refusal)
		}
		it := &fields[i]
		it.plan = made.plan(it.of)
		it.isPlain = len(it.index) == 1 && it.isLeft == nil && it.add != nil
	}
	if len(fields) == 0 && hides {
		return noPlan("Unsupported", "shows no field, and has no MarshalText or MarshalBinary")
	}
	return plan{write: writeFields(fields), read: readFields(fields)}
}

// The fields that are entries, in the order of blocks, by the rules of json: of fields with one name the
// least deep counts, and of those the one whose tag gives the name; if two are left, neither counts. Also
// tells if there are other fields.
func fieldsOf(of reflect.Type) (fields []field, hides bool) {
	all, hides := allFieldsOf(of)
	sort.SliceStable(all, func(i, j int) bool { return all[i].isBefore(&all[j]) })
	for start, end := 0, 0; start < len(all); start = end {
		for end = start + 1; end < len(all) && all[end].name == all[start].name; {
			end++
		}
		if end == start+1 || all[start].isBefore(&all[start+1]) {
			fields = append(fields, all[start])
		}
	}
	return fields, hides || len(all) > 0
}

func (field *field) isBefore(other *field) bool {
	if order := bytes.Compare(field.key, other.key); order != 0 {
		return order < 0
	}
	if len(field.index) != len(other.index) {
		return len(field.index) < len(other.index)
	}
	return field.isTagged && !other.isTagged
}

// A struct, and the fields that lead to it.
type embedded struct {
	reflect.Type
	index []int
}

// All fields that are entries, also those that others hide; and if some are not shown. A struct that is
// embedded again, and deeper, is passed: its fields are hidden, and it may embed itself.
func allFieldsOf(of reflect.Type) (found []field, hides bool) {
	depths := map[reflect.Type]int{}
	for left := []embedded{{of, nil}}; len(left) > 0; left = left[1:] {
		outer := left[0]
		if depth, ok := depths[outer.Type]; ok && depth < len(outer.index) {
			continue
		}
		depths[outer.Type] = len(outer.index)
		entries, inner, isHiding := outer.fields()
		found, left, hides = append(found, entries...), append(left, inner...), hides || isHiding
	}
	return found, hides
}

// The struct's own entries, the structs that it embeds, and if some fields are neither.
func (outer embedded) fields() (entries []field, inner []embedded, hides bool) {
	for i := 0; i < outer.NumField(); i++ {
		it := outer.Field(i)
		tag := tagOf(it)
		name, options, _ := strings.Cut(tag, ",")
		if tag == "-" || it.Name == "_" && options != "toarray" {
			continue
		}
		part, index := embeddedBy(it), append(append([]int{}, outer.index...), i)
		switch {
		case part != nil && name == "" && showsFields(part):
			inner = append(inner, embedded{part, index})
		case isEntry(it, name, part):
			entries = append(entries, newField(it, name, options, index))
		default:
			hides = true
		}
	}
	return entries, inner, hides
}

func tagOf(it reflect.StructField) string {
	for _, key := range []string{"dagcbor", "cbor"} {
		if tag, ok := it.Tag.Lookup(key); ok {
			return tag
		}
	}
	return it.Tag.Get("json")
}

func newField(it reflect.StructField, name, options string, index []int) field {
	made := field{of: it.Type, name: name, index: index, isTagged: name != ""}
	if name == "" {
		made.name = it.Name
	}
	made.key = appendText(nil, made.name)
	if !utf8.ValidString(made.name) {
		made.refusal = "has a field whose name is not UTF-8: " + it.Name
	}
	for _, option := range strings.Split(options, ",") {
		switch option {
		case "omitempty":
			made.leaveIf(isEmpty)
		case "omitzero":
			made.leaveIf(zeroOf(it.Type))
		case "string":
			made.refusal = `has a field with the option "string", which is json's alone: ` + it.Name
		case "keyasint", "toarray":
			made.refusal = `has a field with the option "` + option + `", which no block has: ` + it.Name
		}
	}
	return made
}

// Leaves the field out also if this is true of its value.
func (field *field) leaveIf(is func(reflect.Value) bool) {
	isLeft := field.isLeft
	field.isLeft = func(value reflect.Value) bool { return isLeft != nil && isLeft(value) || is(value) }
}

// As in json; and also a CID that names nothing.
func isEmpty(value reflect.Value) bool {
	switch value.Kind() {
	case reflect.Slice, reflect.Map, reflect.String, reflect.Array:
		return value.Len() == 0
	case reflect.Struct:
		return value.Type() == ofCID && value.IsZero()
	}
	return value.IsZero()
}

// By the method IsZero of the type, if it has one, and by that alone, as in json. Nil pointers are zero.
func zeroOf(of reflect.Type) func(reflect.Value) bool {
	switch {
	case reflect.PointerTo(of).Implements(ofZeroer):
		return func(value reflect.Value) bool {
			if !value.CanInterface() {
				return value.IsZero()
			}
			return pointerTo(value).(zeroer).IsZero()
		}
	case of.Implements(ofZeroer): // a pointer, or an interface
		return func(value reflect.Value) bool {
			isNil := value.IsNil() || value.Elem().Kind() == reflect.Pointer && value.Elem().IsNil()
			return isNil || value.CanInterface() && value.Interface().(zeroer).IsZero()
		}
	}
	return reflect.Value.IsZero
}

// Of the value, or of a copy if it has no address.
func pointerTo(value reflect.Value) any {
	if !value.CanAddr() {
		place := reflect.New(value.Type())
		place.Elem().Set(value)
		return place.Interface()
	}
	return value.Addr().Interface()
}

// The struct that the field embeds, or nil: CIDs and big integers are not structs of entries.
func embeddedBy(it reflect.StructField) reflect.Type {
	part := it.Type
	if it.Anonymous && part.Kind() == reflect.Pointer {
		part = part.Elem()
	}
	if !it.Anonymous || part.Kind() != reflect.Struct || part == ofCID || part == ofBig {
		return nil
	}
	return part
}

// Returns true if the field is an entry. Embedded structs that show no field are entries if they have a name
// or a method writes them: time.Time is one, and sync.Mutex is not.
func isEntry(it reflect.StructField, name string, embeds reflect.Type) bool {
	switch {
	case embeds == nil:
		return it.IsExported() || it.Name == "_"
	case showsFields(embeds):
		return true
	}
	return it.IsExported() && (name != "" || methodWriter(embeds) != nil)
}

// Returns true if the type tells what it holds. A struct that hides all fields, such as time.Time, does not.
func showsFields(of reflect.Type) bool {
	if of.Kind() != reflect.Struct {
		return true
	}
	for i := 0; i < of.NumField(); i++ {
		if it := of.Field(i); it.IsExported() || it.Anonymous {
			return true
		}
	}
	return false
}
