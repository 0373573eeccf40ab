package dagcbor

import (
	"bytes"
	"encoding"
	"encoding/hex"
	"encoding/json"
	"errors"
	"fmt"
	"io"
	"math/big"
	"math/rand"
	"net"
	"net/netip"
	"net/url"
	"reflect"
	"strings"
	"sync"
	"testing"
	"time"
)

// As github.com/ipfs/go-cid has it.
type goCID struct{ str string }

func (cid goCID) KeyString() string            { return cid.str }
func (cid goCID) MarshalText() ([]byte, error) { return []byte("a text"), nil }
func (cid *goCID) UnmarshalBinary(bytes []byte) error {
	cid.str = string(bytes)
	return nil
}

type hidden struct{ id int }
type inner struct{ ID int }
type Inner struct {
	ID   int
	Deep string `json:"deep"`
}
type Other struct{ ID int }
type Tagged struct {
	Same int `json:"ID"`
}
type Ring struct {
	*Ring
	N int
}
type Word string
type word string
type Pairs map[string]int
type Deeper struct{ Inner }
type Twice struct{ Other }
type Again struct{ Other }

// Its method is not its own, and it shows no field.
type unshown struct{ teller }
type unseen struct{ teller }
type teller struct{ said string }

func (teller) MarshalText() ([]byte, error)     { return []byte("a text"), nil }
func (it *teller) UnmarshalText(b []byte) error { it.said += string(b); return nil }

// A text by its methods, though it shows its fields; and a number that is one.
type version struct{ Major, Minor int }

func (it version) MarshalText() ([]byte, error) {
	return []byte(fmt.Sprint(it.Major, ".", it.Minor)), nil
}
func (it *version) UnmarshalText(b []byte) error {
	_, err := fmt.Sscanf(string(b), "%d . %d", &it.Major, &it.Minor)
	return err
}

type color int

func (it *color) MarshalText() ([]byte, error) { return []byte(strings.Repeat("#", int(*it))), nil }
func (it *color) UnmarshalText(b []byte) error { *it = color(len(b)); return nil }

type shade byte

func (it shade) MarshalText() ([]byte, error)  { return []byte{byte(it)}, nil }
func (it *shade) UnmarshalText(b []byte) error { *it = shade(b[0]); return nil }

// Bytes by its methods.
type sealed struct{ bytes string }

func (it sealed) MarshalBinary() ([]byte, error) { return []byte(it.bytes), refusing(it.bytes) }
func (it *sealed) UnmarshalBinary(bytes []byte) error {
	it.bytes = string(bytes)
	return refusing(it.bytes)
}

var errRefusing = errors.New("it refuses")

func refusing(said string) error {
	if said == "no" {
		return errRefusing
	}
	return nil
}

func mustMarshal(t *testing.T, value any) []byte {
	t.Helper()
	block, err := Marshal(value)
	equal(t, err, nil)
	return block
}

// The block of what a text of JSON tells.
func blockOf(t *testing.T, text []byte) []byte {
	t.Helper()
	decoder := json.NewDecoder(bytes.NewReader(text))
	decoder.UseNumber()
	var data any
	equal(t, decoder.Decode(&data), nil)
	return mustMarshal(t, integers(data))
}

// The data with its numbers as integers.
func integers(data any) any {
	switch it := data.(type) {
	case json.Number:
		n, _ := it.Int64()
		return n
	case []any:
		for i := range it {
			it[i] = integers(it[i])
		}
	case map[string]any:
		for key := range it {
			it[key] = integers(it[key])
		}
	}
	return data
}

func at(year int) time.Time { return time.Date(year, 1, 2, 3, 4, 5, 6, time.UTC) }

// What is written is what json writes, and reading it gives what json gives.
func TestAsJSON(t *testing.T) {
	type empties struct {
		A bool           `json:"a,omitempty"`
		B int            `json:"b,omitempty"`
		C string         `json:"c,omitempty"`
		D []int          `json:"d,omitempty"`
		E map[string]int `json:"e,omitempty"`
		F *int           `json:"f,omitempty"`
		G any            `json:"g,omitempty"`
		H [0]int         `json:"h,omitempty"`
		I Inner          `json:"i,omitempty"`
		J time.Time      `json:"j,omitempty"`
		K uint8          `json:"k,omitempty"`
	}
	type names struct {
		A int `json:"-"`
		B int `json:"-,"`
		C int `json:",omitempty"`
		D int `json:"$type"`
		e int
		_ int
	}
	type deep struct {
		Deeper
		Other
	}
	type words struct {
		Word
		word
		Pairs
		*Other
		fmt.Stringer
	}
	seven := 7
	for _, value := range []any{
		&struct {
			inner
			T string
		}{inner{7}, "x"},
		&struct {
			Inner
			ID string
		}{Inner{7, "y"}, "z"},
		&struct {
			Other
			Tagged
		}{Other{1}, Tagged{2}},
		&struct {
			Inner `json:"in"`
		}{Inner{7, "y"}},
		&struct {
			*Inner
			T string
		}{&Inner{7, "y"}, "x"},
		&struct {
			*Inner
			T string
		}{nil, "x"},
		// Of three of one name, that of a tag counts.
		&struct {
			Inner
			Other
			Tagged
		}{Tagged: Tagged{2}},
		// Of two none does.
		&struct {
			Inner
			Other
		}{Inner{1, "y"}, Other{2}},
		&struct {
			sync.Mutex
			N int
		}{N: 1},
		&struct{ inner }{inner{1}}, &struct{ *Inner }{}, &struct {
			inner `json:"of"`
		}{inner{1}},
		&struct {
			unshown `json:"of"`
		}{}, // its text is that of the outer struct too
		&struct {
			time.Time
			N int
		}{at(2001), 0}, // and so is that of a time
		&struct{}{}, &struct{ *inner }{}, &Ring{nil, 3}, &deep{Deeper{Inner{1, "a"}}, Other{2}}, &words{Word: "w", Other: &Other{1}},
		&empties{}, &empties{true, 1, "c", []int{1}, map[string]int{"a": 1}, &seven, 5, [0]int{}, Inner{1, ""}, at(2001), 1}, &empties{D: []int{}},
		&struct {
			Twice
			Again
			N int
		}{N: 1}, // one of both is as deep as one of the other
		&names{1, 2, 0, 4, 5, 6}, &[]shade{'a', 'b'}, &[2]shade{'a', 'b'}, &version{1, 2}, &[]color{1, 2}, &map[string]version{"a": {1, 2}}, &map[version]int{{1, 2}: 3, {10, 2}: 4}, &map[Word]int{"a": 1},
		&struct{ At, Until *time.Time }{At: &time.Time{}}, &[]netip.Addr{netip.MustParseAddr("::1")}, &[]net.IP{net.IPv4(1, 2, 3, 4)},
		&[]encoding.TextMarshaler{at(2001), version{1, 2}}, &struct{ Of *big.Rat }{big.NewRat(1, 3)}, &[]url.URL{{Host: "a"}}, &map[netip.Addr]bool{{}: true},
	} {
		text, err := json.Marshal(value)
		equal(t, err, nil)
		block := mustMarshal(t, value)
		equal(t, []any{hex.EncodeToString(block), string(text)}, []any{hex.EncodeToString(blockOf(t, text)), string(text)})
		found, wanted := reflect.New(reflect.TypeOf(value).Elem()), reflect.New(reflect.TypeOf(value).Elem())
		badJSON, bad := json.Unmarshal(text, wanted.Interface()), Unmarshal(block, found.Interface())
		equal(t, []any{bad == nil, bad}, []any{badJSON == nil, bad})
		if bad == nil {
			sameAsJSON(t, found.Interface(), wanted.Interface())
		}
	}
}

// Numbers in an any differ in their types.
func sameAsJSON(t *testing.T, found, wanted any) {
	t.Helper()
	told, _ := json.Marshal(found)
	toldJSON, _ := json.Marshal(wanted)
	equal(t, string(told), string(toldJSON))
}

// As many fields as the head of a map needs more bytes for, with some left out.
func TestManyFields(t *testing.T) {
	var fields []reflect.StructField
	for i := 0; i < 300; i++ {
		tag := reflect.StructTag(fmt.Sprintf(`json:"f%d,omitempty"`, i))
		fields = append(fields, reflect.StructField{Name: fmt.Sprint("F", i), Type: reflect.TypeOf(""), Tag: tag})
	}
	for _, most := range []int{1, 23, 24, 25, 255, 256, 257, 300} {
		for _, count := range []int{0, 1, 22, 23, 24, 25, 254, 255, 256, 257, 300} {
			value := reflect.New(reflect.StructOf(fields[:most]))
			wanted := map[string]any{}
			for i := 0; i < count && i < most; i++ {
				value.Elem().Field(i).SetString("said")
				wanted[fmt.Sprint("f", i)] = "said"
			}
			block := mustMarshal(t, value.Interface())
			equal(t, block, mustMarshal(t, wanted))
			again := reflect.New(reflect.StructOf(fields[:most]))
			equal(t, []any{Unmarshal(block, again.Interface()), again.Interface()}, []any{nil, value.Interface()})
		}
	}
}

// Keys of all lengths, many of which begin alike.
func TestKeys(t *testing.T) {
	r := rand.New(rand.NewSource(1))
	keys, same := map[string]int{}, map[string]any{}
	for i := 0; i < 3000; i++ {
		key := make([]byte, r.Intn(16)*r.Intn(30))
		for i := range key[len(key)/2:] {
			key[len(key)/2+i] = "\x00a\x7f"[r.Intn(3)]
		}
		keys[string(key)], same[string(key)] = i, i
	}
	block := mustMarshal(t, keys)
	equal(t, block, mustMarshal(t, same))
	var again map[string]int
	equal(t, []any{Unmarshal(block, &again), again}, []any{nil, keys})
}

// What is read, into values that hold something already, is what json reads.
func TestReadsAsJSON(t *testing.T) {
	type all struct {
		A bool
		B int
		C string
		D []int
		E map[string]int
		F *int
		G any
		H [2]int
		I Inner
		J *Inner
		K time.Time
		L *time.Time
		M uint8
		N map[string]Inner
		O fmt.Stringer
		P map[string]*int
		Q **int
		*Other
		inner
	}
	full := func() *all {
		one, other := 1, 2
		pointer, moment := &other, at(2002)
		return &all{true, 1, "c", []int{1, 2}, map[string]int{"a": 1}, &one, &Inner{1, "g"}, [2]int{1, 2}, Inner{1, "i"}, &Inner{1, "j"}, at(2001), &moment, 1,
			map[string]Inner{"a": {1, "n"}}, &moment, map[string]*int{"a": &one}, &pointer, &Other{7}, inner{8}}
	}
	for _, text := range []string{
		`{}`, `null`, `{"Z":[{"A":{}},[],"",null],"A":false}`,
		`{"A":null,"B":null,"C":null,"D":null,"E":null,"F":null,"G":null,"H":null,"I":null,"J":null,"K":null,"L":null,"M":null,"N":null,"O":null,"P":null,"Q":null}`,
		`{"D":[],"E":{},"F":5,"G":{"ID":3},"H":[3,4],"I":{"ID":3},"J":{"deep":"x"},"Q":9}`,
		`{"D":[3],"E":{"b":2},"G":5,"J":{},"K":"2003-01-02T00:00:00Z","L":"2003-01-02T00:00:00Z","M":255,"N":{"a":{},"b":{"ID":1}},"P":{"a":null,"b":4}}`,
		`{"E":{"a":null},"N":{"a":null},"O":"2003-01-02T00:00:00Z"}`, `{"A":1}`, `{"M":256}`, `{"M":-1}`, `{"I":[]}`, `[]`, `{"K":5}`, `{"K":"x"}`, `{"O":5}`, `{"F":"x"}`, `{"G":"x"}`,
	} {
		for _, of := range []func() any{func() any { return full() }, func() any { return new(all) }, func() any { it := full(); return &it }, func() any { var it any = full(); return &it }} {
			found, wanted := of(), of()
			bad, badJSON := Unmarshal(blockOf(t, []byte(text)), found), json.Unmarshal([]byte(text), wanted)
			equal(t, []any{text, bad == nil, bad}, []any{text, badJSON == nil, bad})
			if bad == nil {
				sameAsJSON(t, found, wanted)
			}
		}
	}
}

// What json has no word for, or loses.
func TestByMethods(t *testing.T) {
	type record struct {
		From  goCID
		Of    []sealed
		Part  big.Rat
		CID   CID        `dagcbor:",omitempty"`
		Until time.Time  `dagcbor:",omitzero"`
		Since *time.Time `dagcbor:",omitzero"`
		Zero  int        `dagcbor:",omitzero"`
		By    map[CID]int
	}
	cid := Name(nil)
	full := record{goCID{string(cid.Bytes())}, []sealed{{"ab"}}, *big.NewRat(1, 3), cid, at(2001), new(time.Time), 1, map[CID]int{cid: 1}}
	block := mustMarshal(t, full)
	var data any
	equal(t, Unmarshal(block, &data), nil)
	equal(t, data, map[string]any{"From": cid, "Of": []any{[]byte("ab")}, "Part": "1/3", "CID": cid, "Until": "2001-01-02T03:04:05.000000006Z", "Zero": int64(1), "By": map[string]any{cid.String(): int64(1)}})
	again := record{}
	equal(t, Unmarshal(block, &again), nil)
	full.Since = nil
	equal(t, again, full)
	equal(t, Unmarshal(mustMarshal(t, record{From: full.From}), &data), nil)
	equal(t, data, map[string]any{"From": cid, "Of": nil, "Part": "0", "By": nil})
	var told map[teller]int
	equal(t, []any{Unmarshal(unhex("a2616101616202"), &told), told}, []any{nil, map[teller]int{{"a"}: 1, {"b"}: 2}})
	// One that shows no field is an entry by its type's name.
	type kept struct {
		time.Time
		CID
		big.Int
		N int
	}
	value := kept{at(2001), cid, *big.NewInt(5), 1}
	var same kept
	equal(t, []any{Unmarshal(mustMarshal(t, value), &same), same}, []any{nil, value})
}

// A level, where 0 is one, and -1 is none.
type level int

func (it level) IsZero() bool { return it == -1 }

// By json's rules, which are those of Go 1.24.
func TestOmitZero(t *testing.T) {
	type record struct {
		A, B level   `dagcbor:",omitzero"`
		C, D any     `dagcbor:",omitzero"`
		E, F zeroer  `dagcbor:",omitzero"`
		G    *level  `dagcbor:",omitzero"`
		H    []level `dagcbor:",omitzero"`
		// One of the two is enough.
		I []level   `dagcbor:",omitempty,omitzero"`
		J time.Time `dagcbor:",omitzero,omitempty"`
	}
	var none *time.Time
	var data any
	block := mustMarshal(t, record{A: 0, B: -1, C: time.Time{}, D: none, E: none, F: level(0), H: []level{}, I: []level{}})
	equal(t, Unmarshal(block, &data), nil)
	equal(t, data, map[string]any{"A": int64(0), "C": "0001-01-01T00:00:00Z", "D": nil, "F": int64(0), "H": []any{}})
	equal(t, mustMarshal(t, record{B: -1, A: -1, F: level(-1), G: new(level)}), mustMarshal(t, map[string]any{"G": 0}))
}

// An item by its methods, as for fxamacker/cbor, and as cbor-gen makes them.
type spelled struct{ item string }

func (it spelled) MarshalCBOR() ([]byte, error) { return []byte(it.item), refusing(it.item) }
func (it *spelled) UnmarshalCBOR(item []byte) error {
	it.item = string(item)
	return refusing(it.item[1:])
}

type streamed struct{ Item string }

func (it *streamed) MarshalCBOR(to io.Writer) error {
	_, err := io.WriteString(to, it.Item)
	return err
}
func (it *streamed) UnmarshalCBOR(from io.Reader) error {
	item, err := io.ReadAll(from)
	it.Item = string(item)
	return err
}

func TestItems(t *testing.T) {
	type items struct {
		A spelled
		B *spelled
		C []streamed
		D RawMessage
		E map[string]RawMessage
		F *streamed `dagcbor:",omitempty"`
	}
	list, text := "\x82\xf6\x61a", "\x62hi"
	full := items{spelled{list}, &spelled{text}, []streamed{{"\xf6"}, {list}}, RawMessage(list), map[string]RawMessage{"x": RawMessage(text)}, nil}
	block := mustMarshal(t, full)
	equal(t, string(block), "\xa5\x61A"+list+"\x61B"+text+"\x61C\x82\xf6"+list+"\x61D"+list+"\x61E\xa1\x61x"+text)
	var again items
	equal(t, []any{Unmarshal(block, &again), again}, []any{nil, full})
	equal(t, mustMarshal(t, []any{RawMessage(nil), (*spelled)(nil), &streamed{"\x01"}}), []byte("\x83\xf6\xf6\x01"))
	var raw RawMessage
	rest, err := UnmarshalFirst([]byte("\xa1\x61a\x01\x02"), &raw)
	equal(t, []any{string(raw), rest, err}, []any{"\xa1\x61a\x01", []byte{2}, nil})
	for _, row := range []struct {
		item, kind string
		place      int64
	}{{"", "Eof", 0}, {"\x01\x01", "TrailingData", 1}, {"\x82\x01\x18\x17", "NonMinimal", 3}, {"\xfa\x00\x00\x00\x00", "Unsupported", 0}} {
		for _, value := range []any{RawMessage(row.item), spelled{row.item}, streamed{row.item}} {
			_, err := Marshal(map[string]any{"a": value})
			refusal := refusalOf(t, err)
			equal(t, []any{refusal.Kind, refusal.Place, refusal.Path}, []any{row.kind, row.place, []any{"a"}})
		}
	}
	_, err = Marshal(spelled{"no"})
	equal(t, errors.Is(err, errRefusing), true)
	err = Unmarshal(unhex("81626e6f"), new([]spelled))
	equal(t, []any{errors.Is(err, errRefusing), refusalOf(t, err).Path}, []any{true, []any{0}})
	deep := RawMessage(strings.Repeat("\x81", 127) + "\x01")
	_ = mustMarshal(t, deep)
	_, err = Marshal([]RawMessage{deep})
	equal(t, refusalOf(t, err).Kind, "DepthOverflow")
}

// The tag for fxamacker/cbor counts before json's, and after our own.
func TestTags(t *testing.T) {
	type tagged struct {
		A int `json:"x" cbor:"a" dagcbor:"b"`
		B int `json:"y" cbor:"c,omitempty"`
		C int `json:"d"`
		D int `json:"z" cbor:"-"`
	}
	equal(t, mustMarshal(t, tagged{A: 1}), []byte("\xa2\x61b\x01\x61d\x00"))
	var read tagged
	equal(t, []any{Unmarshal([]byte("\xa4\x61A\x01\x61a\x02\x61b\x03\x61x\x04"), &read), read}, []any{nil, tagged{A: 3}})
	for _, value := range []any{struct {
		A int `cbor:"1,keyasint"`
	}{}, struct {
		_ struct{} `cbor:",toarray"`
		A int
	}{}} {
		_, err := Marshal(value)
		equal(t, refusalOf(t, err).Kind, "Unsupported")
	}
}

func refusalOf(t *testing.T, err error) *Error {
	t.Helper()
	var refusal *Error
	equal(t, errors.As(err, &refusal), true)
	return refusal
}

// Types that show no field, or ask for what is not here: refused, by name.
func TestHidden(t *testing.T) {
	type mine CID
	type quoted struct {
		N int `json:"n,string"`
	}
	for _, value := range []any{hidden{1}, mine(Name(nil)), &struct{ hidden }{}, reflect.ValueOf(1), struct{ at time.Time }{}, quoted{1}, struct {
		A int `dagcbor:"x"`
		B int `dagcbor:"x"`
	}{}, struct {
		A int `dagcbor:"\xff"`
	}{}} {
		_, err := Marshal([]any{value})
		refusal := refusalOf(t, err)
		of := reflect.TypeOf(value)
		if of.Kind() == reflect.Pointer {
			of = of.Elem()
		}
		equal(t, []any{refusal.Kind, refusal.Path, refusal.Type}, []any{"Unsupported", []any{0}, of})
		equal(t, strings.Contains(err.Error(), of.String()), true)
		into := reflect.New(of).Interface()
		equal(t, refusalOf(t, Unmarshal([]byte{0xa0}, into)).Kind, "Type")
		equal(t, Unmarshal([]byte{0xf6}, into), nil)
	}
	equal(t, strings.Contains(Unmarshal([]byte{0xa0}, new(quoted)).Error(), `option "string", which is json's alone: N`), true)
	for _, value := range []any{struct{}{}, struct{ _ int }{}, struct {
		A int `json:"-"`
	}{}} {
		equal(t, mustMarshal(t, value), []byte{0xa0})
	}
	for _, row := range []struct {
		block string
		into  any
	}{{"a0", new(time.Time)}, {"6161", new(time.Time)}, {"40", new(time.Time)}, {"6161", new(hidden)}, {"a0", new(goCID)}, {"6161", new(goCID)}, {"6161", new(Inner)}, {"a1616101", new(map[version]int)}, {"a0", new(map[int]int)}} {
		equal(t, refusalOf(t, Unmarshal(unhex(row.block), row.into)).Kind, "Type")
	}
}

// Embedded types that are not exported: what reflection holds back is refused, and named.
func TestNotExported(t *testing.T) {
	type part struct {
		N  int
		It struct {
			unshown `json:"of"`
			unseen  `json:"-"` // so that the text is of neither
		}
	}
	type unset struct{ *inner }
	type pointer struct {
		*inner `json:"of"`
	}
	_, err := Marshal([]any{part{}})
	equal(t, err.Error(), "dagcbor: dagcbor.unshown is not exported, and so its methods are not called, in [0].It.of")
	for _, row := range []struct {
		block, said string
		into        any
	}{
		{"a1624974a1626f666161", "dagcbor.unshown is not exported, and so its methods are not called, at 8, in .It.of", new(part)},
		{"a1626f66a162494401", "dagcbor.inner is not exported, and so no pointer to it is set, at 4, in .of", new(pointer)},
		{"a162494401", "dagcbor.inner is not exported, and so no pointer to it is set, at 1, in .ID", new(unset)},
	} {
		equal(t, Unmarshal(unhex(row.block), row.into).Error(), "dagcbor: "+row.said)
	}
	held := pointer{&inner{}}
	equal(t, []any{Unmarshal(unhex("a1626f66a162494401"), &held), held.ID}, []any{nil, 1})
}

func TestErrors(t *testing.T) {
	type reply struct {
		CreatedAt time.Time `json:"createdAt"`
	}
	type posts struct {
		Posts []reply        `json:"posts"`
		Of    map[string]int `json:"of"`
		Sum   *sealed        `json:"sum"`
	}
	block := mustMarshal(t, map[string]any{"posts": []any{map[string]any{}, map[string]any{"createdAt": "yesterday"}}})
	err := Unmarshal(block, new(posts))
	refusal := refusalOf(t, err)
	equal(t, []any{refusal.Kind, refusal.Path, refusal.Type, refusal.Place}, []any{"Type", []any{"posts", 1, "createdAt"}, reflect.TypeOf(time.Time{}), int64(20)})
	var cause *time.ParseError
	equal(t, errors.As(err, &cause), true)
	equal(t, err.Error(), "dagcbor: time.Time is not read: "+cause.Error()+", at 20, in .posts[1].createdAt")
	err = Unmarshal(unhex("a1626f66a163612062f5"), new(posts))
	equal(t, err.Error(), `dagcbor: int does not take this bool, at 9, in .of["a b"]`)
	_, err = Marshal(posts{Sum: &sealed{"no"}})
	equal(t, []any{errors.Is(err, errRefusing), err.Error()}, []any{true, "dagcbor: dagcbor.sealed is not written: it refuses, in .sum"})
	equal(t, errors.Is(Unmarshal(unhex("a16373756d426e6f"), new(posts)), errRefusing), true)
	_, err = Marshal(map[color]int{1: 1, 2: 2})
	equal(t, err, nil)
	_, err = Marshal(map[teller]int{{"a"}: 1, {"b"}: 2})
	equal(t, []any{refusalOf(t, err).Kind, refusalOf(t, err).Path}, []any{"UnorderedKey", []any{"a text"}})
	_, err = Marshal(struct{ Of []goCID }{[]goCID{{"\x01\x71\x12\x20"}}})
	equal(t, err.Error(), "dagcbor: the bytes are no CID, in .Of[0]")
	_, err = Marshal([]any{[]string{"a", "\xff"}})
	equal(t, err.Error(), "dagcbor: a text that is not UTF-8, in [0][1]")
	_, err = Marshal(map[string]any{"": struct{ A string }{"\xff"}})
	equal(t, err.Error(), `dagcbor: a text that is not UTF-8, in [""].A`)
	_, err = Marshal([]any{map[string]any{"a": 1.5}})
	equal(t, err.Error(), "dagcbor: float64 is not written: floats are left out of these blocks, in [0].a")
}

func TestPointersInARing(t *testing.T) {
	type pointer *pointer
	type node struct{ Next *node }
	var ring any
	ring = &ring
	var other pointer
	other = &other
	list := []any{nil}
	list[0] = list
	table := map[string]any{}
	table["a"] = &table
	knot := &node{}
	knot.Next = knot
	for _, value := range []any{ring, other, list, table, []any{ring}, knot} {
		_, err := Marshal(value)
		equal(t, refusalOf(t, err).Kind, "DepthOverflow")
	}
	// As deep as may be, by structs and by lists; and as many pointers as one likes beside each other.
	deep, lists, many := &node{}, any([]any{}), make([]*int, 2*mostPointers)
	for i := 0; i < mostLevels; i++ {
		_ = mustMarshal(t, deep)
		deep, lists = &node{deep}, []any{lists}
	}
	_, err := Marshal(deep)
	equal(t, len(refusalOf(t, err).Path), mostLevels+1)
	_ = mustMarshal(t, lists)
	for i := range many {
		many[i] = new(int)
	}
	var again []*int
	equal(t, []any{Unmarshal(mustMarshal(t, many), &again), again}, []any{nil, many})
	for _, into := range []any{&other, &ring} {
		equal(t, refusalOf(t, Unmarshal([]byte{1}, into)).Kind, "Type")
	}
}

type stuck struct{}

func (stuck) Read([]byte) (int, error) { return 0, nil }

func TestNoProgress(t *testing.T) {
	_, err := NewCARReader(stuck{})
	equal(t, errors.Is(err, io.ErrNoProgress), true)
	equal(t, NewDecoder(stuck{}).Decode(new(any)), io.ErrNoProgress)
}

// Types of one another are planned once, whichever comes first.
func TestTogether(t *testing.T) {
	type one struct {
		Of   map[string]*one
		Same []one
		Any  any
	}
	var wait sync.WaitGroup
	for i := 0; i < 8; i++ {
		wait.Add(1)
		go func() {
			defer wait.Done()
			value := one{Of: map[string]*one{"a": {}}, Same: []one{{Any: true}}}
			block, err := Marshal(value)
			var again one
			equal(t, []any{err, Unmarshal(block, &again), again}, []any{nil, nil, value})
		}()
	}
	wait.Wait()
}
