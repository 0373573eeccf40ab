package dagcbor

import (
	"bytes"
	"crypto/sha256"
	"encoding/hex"
	"encoding/json"
	"errors"
	"fmt"
	"io"
	"math/big"
	"math/rand"
	"os"
	"reflect"
	"strconv"
	"strings"
	"testing"
	"testing/iotest"
	"time"
)

func rows(t testing.TB, name string) (rows [][]string) {
	text, err := os.ReadFile("../tables/" + name + ".txt")
	if err != nil {
		t.Fatal(err, ": conformance/rows writes it")
	}
	for _, line := range strings.Split(strings.TrimSpace(string(text)), "\n") {
		rows = append(rows, strings.Split(line, " "))
	}
	return
}

func unhex(text string) []byte {
	bytes, err := hex.DecodeString(strings.Trim(text, "-"))
	if err != nil {
		panic(err)
	}
	return bytes
}

func number(text string) int {
	n, err := strconv.Atoi(text)
	if err != nil {
		panic(err)
	}
	return n
}

func equal(t *testing.T, found, wanted any) {
	t.Helper()
	if !reflect.DeepEqual(found, wanted) {
		t.Fatalf("found %v, wanted %v", found, wanted)
	}
}

// True if the error is that of the number, at the place.
func isRefused(t *testing.T, err error, code int, place int64) {
	t.Helper()
	var refusal *Error
	if !errors.As(err, &refusal) {
		t.Fatalf("no Error: %v", err)
	}
	equal(t, []any{refusal.Kind, refusal.Place}, []any{nameOf(code), place})
}

func words(cids []CID) string {
	var words []string
	for _, cid := range cids {
		words = append(words, hex.EncodeToString(cid.Bytes()))
	}
	if words == nil {
		return "-"
	}
	return strings.Join(words, ",")
}

func TestTable(t *testing.T) {
	for _, row := range rows(t, "table") {
		block, code := unhex(row[0]), number(row[1])
		kind, err := Check(block)
		var value any
		badValue := Unmarshal(block, &value)
		if code < 0 {
			for _, err := range []error{err, badValue} {
				isRefused(t, err, code, int64(number(row[6])))
			}
			equal(t, errors.Is(err, io.ErrUnexpectedEOF), code == -3)
		} else {
			equal(t, []any{int(kind), err, badValue}, []any{code, nil, nil})
			again, err := Marshal(value)
			equal(t, []any{again, err}, []any{block, nil})
			more := append(append([]byte{}, block...), 0xf6)
			var first any
			isRefused(t, Unmarshal(more, &first), -14, int64(len(block)))
			equal(t, first, nil)
			rest, err := UnmarshalFirst(more, &first)
			equal(t, []any{first, rest, err}, []any{value, []byte{0xf6}, nil})
		}
		links, err := Links(block)
		if code := number(row[2]); code < 0 {
			equal(t, err == nil, false)
		} else {
			equal(t, words(links), row[3])
		}
		equal(t, hex.EncodeToString(Name(block).Bytes()), row[4])
	}
}

func TestTexts(t *testing.T) {
	for _, row := range rows(t, "texts") {
		cid, err := ParseCID(strings.Trim(row[0], "-"))
		if code := number(row[1]); code < 0 {
			isRefused(t, err, code, -1)
			continue
		}
		equal(t, []any{hex.EncodeToString(cid.Bytes()), cid.String(), err}, []any{row[2], row[3], nil})
		again, err := CIDOf(cid.Bytes())
		equal(t, []any{again, err, again == cid}, []any{cid, nil, true})
		if cid.Version() == 1 {
			again, err = NewCID(cid.Codec(), cid.HashCode(), cid.Digest())
			equal(t, []any{again, err}, []any{cid, nil})
		}
	}
}

func TestCID(t *testing.T) {
	cid := Name([]byte{0xf6})
	equal(t, []any{cid.Version(), cid.Codec(), cid.HashCode(), len(cid.Digest())}, []any{uint64(1), uint64(0x71), uint64(0x12), 32})
	old, _ := ParseCID("QmdfTbBqBPQ7VNxZEYEj14VmRuZBkqFbiwReogJgS1zR1n")
	equal(t, []any{old.Version(), old.Codec(), old.Bytes()[2:]}, []any{uint64(0), uint64(0x70), old.Digest()})
	text, err := json.Marshal(map[CID][]CID{cid: {old}})
	equal(t, []any{string(text), err}, []any{fmt.Sprintf(`{"%v":["%v"]}`, cid, old), nil})
	var again map[CID][]CID
	equal(t, []any{json.Unmarshal(text, &again), again}, []any{nil, map[CID][]CID{cid: {old}}})
	equal(t, []any{CID{}.Defined(), CID{}.String(), CID{}.Version()}, []any{false, "", uint64(0)})
	for _, length := range []int{65, 128, 1000} {
		_, err := NewCID(0x71, 0x12, make([]byte, length))
		isRefused(t, err, -26, -1)
	}
	equal(t, Verify(cid, []byte{0xf6}), nil)
	isRefused(t, Verify(cid, []byte{0xf7}), -22, -1)
	isRefused(t, Verify(CID{}, nil), -26, -1)
	blake, _ := NewCID(0x71, 0x1e, make([]byte, 32))
	isRefused(t, Verify(blake, nil), -23, -1)
}

func TestMarshal(t *testing.T) {
	type text string
	type pair [2]uint16
	type octet byte
	seven := 7
	least := new(big.Int).Not(new(big.Int).SetUint64(1<<64 - 1))
	for _, row := range []struct {
		value any
		block string
	}{
		{nil, "f6"}, {true, "f5"}, {int8(-1), "20"}, {uint64(1<<64 - 1), "1bffffffffffffffff"},
		{least, "3bffffffffffffffff"}, {text("a"), "6161"}, {pair{1, 256}, "8201190100"},
		{&seven, "07"}, {(*int)(nil), "f6"}, {[]byte(nil), "f6"}, {[]byte{}, "40"}, {[2]byte{1, 2}, "420102"},
		{[]octet{1, 2}, "420102"}, {[2]octet{1, 2}, "420102"},
		{map[text][]int{"bb": {1}, "c": nil}, "a26163f66262628101"}, {[]any(nil), "f6"},
		{[]any{Name(nil), map[string]any{}}, "82d82a58250001711220e3b0c44298fc1c149afbf4c8996fb92427ae41e4649b934ca495991b7852b855a0"},
	} {
		block, err := Marshal(row.value)
		equal(t, []any{hex.EncodeToString(block), err}, []any{row.block, nil})
	}
	deep := any(nil)
	for i := 0; i < 127; i++ {
		deep = []any{deep}
	}
	if _, err := Marshal(deep); err != nil {
		t.Fatal(err)
	}
	for _, row := range []struct {
		value any
		kind  string
		path  []any
	}{
		{1.5, "Unsupported", []any{}}, {[]any{1, map[string]any{"a": float32(0)}}, "Unsupported", []any{1, "a"}},
		{map[int]int{}, "Mismatch", []any{}}, {"\xff", "RequireUtf8", []any{}}, {[]any{"a", map[string]any{"b": "\xff"}}, "RequireUtf8", []any{1, "b"}}, {[]any{make(chan int)}, "Unsupported", []any{0}},
		{map[string]any{"a": CID{}}, "InvalidCid", []any{"a"}},
		{new(big.Int).Sub(least, big.NewInt(1)), "CastOverflow", []any{}},
	} {
		_, err := Marshal(row.value)
		var refusal *Error
		equal(t, errors.As(err, &refusal), true)
		equal(t, []any{refusal.Kind, refusal.Path}, []any{row.kind, row.path})
	}
	var refusal *Error
	_, err := Marshal([]any{deep})
	equal(t, []any{errors.As(err, &refusal), refusal.Kind}, []any{true, "DepthOverflow"})
}

func TestStream(t *testing.T) {
	item, _ := Marshal(map[string]any{"op": 1})
	long, _ := Marshal(make([]int, 1000))
	stream := bytes.Repeat(append(item, long...), 2000) // 2 MB: each item is gone through alone
	count := 0
	for rest := stream; len(rest) > 0; count++ {
		var err error
		if rest, err = UnmarshalFirst(rest, new(any)); err != nil {
			t.Fatal(err)
		}
	}
	equal(t, count, 4000)
}

// Blocks one after the other, however they come.
func TestDecoder(t *testing.T) {
	var stream bytes.Buffer
	encoder := NewEncoder(&stream)
	values := []any{int64(1), map[string]any{"a": []any{nil, "b"}}, strings.Repeat("é", 5000), make([]byte, 70000), Name(nil), []any{}}
	for _, value := range values {
		equal(t, encoder.Encode(value), nil)
	}
	equal(t, encoder.Encode(1.5) == nil, false)
	for _, reader := range []func(io.Reader) io.Reader{iotest.OneByteReader, iotest.HalfReader, iotest.DataErrReader, func(it io.Reader) io.Reader { return it }} {
		decoder := NewDecoder(reader(bytes.NewReader(stream.Bytes())))
		for _, value := range values {
			var found any
			equal(t, []any{decoder.More(), decoder.Decode(&found), found}, []any{true, nil, value})
			left, err := io.ReadAll(decoder.Buffered())
			equal(t, []any{bytes.HasPrefix(stream.Bytes()[decoder.InputOffset():], left), err}, []any{true, nil})
		}
		equal(t, []any{decoder.More(), decoder.InputOffset(), decoder.Decode(new(any)), decoder.Decode(new(any))}, []any{false, int64(stream.Len()), io.EOF, io.EOF})
	}
	late := NewDecoder(iotest.TimeoutReader(iotest.OneByteReader(bytes.NewReader(stream.Bytes()))))
	equal(t, []any{late.Decode(new(int)), late.Decode(new(any)), late.Decode(new(any))}, []any{nil, iotest.ErrTimeout, iotest.ErrTimeout})
	encoder = NewEncoder(failing{})
	equal(t, []any{encoder.Encode(1.5) == iotest.ErrTimeout, encoder.Encode(1), encoder.Encode(1.5)}, []any{false, iotest.ErrTimeout, iotest.ErrTimeout})
}

// What is not of the type is passed; what is no block comes again, and no more is read.
func TestDecoderRefuses(t *testing.T) {
	decoder := NewDecoder(strings.NewReader("\x01\x61a\x02\x82\x03\x18\x17\x04"))
	var n int
	equal(t, []any{decoder.Decode(n) == nil, decoder.Decode(&n), n}, []any{false, nil, 1})
	equal(t, decoder.Decode(&n).Error(), "dagcbor: int does not take this string, at 1")
	equal(t, []any{decoder.Decode(&n), n}, []any{nil, 2})
	for i := 0; i < 2; i++ {
		isRefused(t, decoder.Decode(&n), -16, 7)
		equal(t, decoder.InputOffset(), int64(4))
	}
	for _, row := range []struct {
		stream string
		code   int
		place  int64
	}{{"\x82\x01", -3, 2}, {"\x19\x01", -3, 2}, {"\x5b\xff\xff\xff\xff\xff\xff\xff\xff\x00", -3, 10}, {strings.Repeat("\xbb\xff\xff\xff\xff\xff\xff\xff\xff", 300), -4, 9}} {
		err := NewDecoder(strings.NewReader(row.stream)).Decode(new(any))
		isRefused(t, err, row.code, row.place)
		equal(t, errors.Is(err, io.ErrUnexpectedEOF), row.code == -3)
	}
	ended := io.MultiReader(strings.NewReader("\x82\xff"), iotest.ErrReader(errors.New("no more is wanted")))
	decoder = NewDecoder(ended)
	for i := 0; i < 2; i++ {
		isRefused(t, decoder.Decode(new(any)), -15, 1)
	}
	cut := io.MultiReader(strings.NewReader("\x82\x01"), iotest.ErrReader(iotest.ErrTimeout))
	equal(t, NewDecoder(cut).Decode(new(any)), iotest.ErrTimeout)
	holdStream(t, unhex("9bffffffffffffffff8200ff"))
	holdStream(t, unhex("bb8000000000000000616100ff"))

	decoder = NewDecoder(strings.NewReader("\xa2\x61b\x01\x62ID\x05\xa1\x62ID\x05"))
	decoder.DisallowUnknownFields()
	var into struct{ In []inner }
	err := decoder.Decode(&into.In)
	equal(t, err == nil, false)
	var it inner
	equal(t, []any{decoder.Decode(&it), it}, []any{nil, inner{5}})
	decoder = NewDecoder(strings.NewReader("\xa1\x62In\x81\xa2\x61b\x01\x62ID\x05"))
	equal(t, []any{decoder.Decode(&into), into.In}, []any{nil, []inner{{5}}})
	decoder = NewDecoder(strings.NewReader("\xa1\x62In\x81\xa2\x61b\x01\x62ID\x05"))
	decoder.DisallowUnknownFields()
	equal(t, decoder.Decode(&into).Error(), "dagcbor: dagcbor.inner has no field of this name, at 6, in .In[0].b")
}

type note struct {
	Text  string            `dagcbor:"text"`
	Year  *uint16           `json:"year,omitempty"`
	Of    CID               `dagcbor:"of"`
	More  map[string][]int8 `dagcbor:"more,omitempty"`
	Bytes [2]byte           `dagcbor:"b"`
	Skip  chan int          `dagcbor:"-"`
	Any   any               `dagcbor:"any,omitempty"`
	Big   big.Int           `dagcbor:"big"`
	quiet int
}

func TestTypes(t *testing.T) {
	year := uint16(23)
	least := new(big.Int).Not(new(big.Int).SetUint64(1<<64 - 1))
	full := note{"hi", &year, Name(nil), map[string][]int8{"a": {-1, 127}}, [2]byte{1, 2}, nil, []any{true, nil}, *least, 0}
	for _, value := range []note{full, {Of: Name(nil)}} {
		block, err := Marshal(&value)
		equal(t, err, nil)
		var again note
		equal(t, []any{Unmarshal(block, &again), again}, []any{nil, value})
	}
	block, _ := Marshal(note{Of: Name(nil)})
	var data any
	equal(t, Unmarshal(block, &data), nil)
	equal(t, data, map[string]any{"b": []byte{0, 0}, "of": Name(nil), "big": int64(0), "text": ""})

	block, _ = Marshal(map[string]any{"a": []any{1}, "text": "x", "zzzzz": map[string]any{"q": []any{nil}}})
	kept := note{Year: &year}
	equal(t, []any{Unmarshal(block, &kept), kept}, []any{nil, note{Text: "x", Year: &year}})

	type octet byte
	type pair struct{ One, Other []int }
	for _, row := range []struct{ block, into, wanted any }{
		{"420102", new([]octet), &[]octet{1, 2}}, {"420102", new([2]octet), &[2]octet{1, 2}},
		{"a26161a1634f6e6581056162a0", new(map[string]pair), &map[string]pair{"a": {One: []int{5}}, "b": {}}},
		{"a26161a1634f6e6581056162f6", new(map[string]*pair), &map[string]*pair{"a": {One: []int{5}}, "b": nil}},
		{"83f6f5190100", new([3]any), &[3]any{nil, true, int64(256)}},
		{"821a000100003b0000000100000000", new([]int64), &[]int64{1 << 16, -1<<32 - 1}},
	} {
		equal(t, Unmarshal(unhex(row.block.(string)), row.into), nil)
		equal(t, row.into, row.wanted)
	}
	for _, row := range []struct {
		block string
		into  any
		kind  string
		place int64
		path  []any
	}{
		{"1817", new(int), "NonMinimal", 1, nil}, {"f5", new(int), "Type", 0, []any{}},
		{"820100", new([3]int), "Type", 0, []any{}}, {"8201190100", new([]uint8), "Type", 0, []any{}},
		{"8201190100", new([]int8), "Type", 2, []any{1}}, {"20", new(uint64), "Type", 0, []any{}},
		{"3bffffffffffffffff", new(int64), "Type", 0, []any{}}, {"1bffffffffffffffff", new(int64), "Type", 0, []any{}},
		{"a16161a161628101", new(map[string]map[string][]string), "Type", 7, []any{"a", "b", 0}},
		{"a16474657874f5", new(note), "Type", 6, []any{"text"}}, {"4101", new([2]byte), "Type", 0, []any{}},
		{"6161", new(CID), "Type", 0, []any{}}, {"a0", new(CID), "Type", 0, []any{}},
		{"01", 5, "Type", -1, nil}, {"01", (*int)(nil), "Type", -1, nil}, {"01", nil, "Type", -1, nil},
	} {
		var refusal *Error
		equal(t, errors.As(Unmarshal(unhex(row.block), row.into), &refusal), true)
		equal(t, []any{refusal.Kind, refusal.Place, refusal.Path}, []any{row.kind, row.place, row.path})
	}
}

// What is told of a file, as a row of the table has it.
func answered(reader io.Reader, sum func([]byte) [32]byte) [3]string {
	told := [3]string{"-", "-", "-"}
	fault := func(err error) string {
		var refusal *Error
		if err == io.EOF {
			return "-"
		}
		if !errors.As(err, &refusal) {
			return err.Error()
		}
		return fmt.Sprintf("%s:%d", refusal.Kind, refusal.Place)
	}
	car, err := NewCARReader(reader)
	if err != nil {
		told[2] = fault(err)
		return told
	}
	car.SHA256 = sum
	told[0] = words(car.Roots())
	var sections []string
	for {
		section, err := car.Next()
		if err != nil {
			told[2] = fault(err)
			if _, again := car.Next(); again != err {
				told[2] += " once"
			}
			break
		}
		sections = append(sections, fmt.Sprintf("%x:%d:%s", section.CID.Bytes(), len(section.Block), section.Verdict))
	}
	if sections != nil {
		told[1] = strings.Join(sections, ",")
	}
	return told
}

func TestFiles(t *testing.T) {
	for _, row := range rows(t, "files") {
		file := unhex(row[0])
		wanted := [3]string{row[1], row[2], row[3]}
		if row[2] != "-" {
			sections := strings.Split(row[2], ",")
			for i, it := range sections {
				parts := strings.Split(it, ":")
				code := number(parts[2])
				sections[i] = fmt.Sprintf("%s:%s:%s", parts[0], parts[1], verdictNamed(code))
			}
			wanted[1] = strings.Join(sections, ",")
		}
		if row[3] != "-" {
			parts := strings.Split(row[3], ":")
			place, _ := strconv.ParseInt(parts[1], 10, 64) // the greatest, where it is out of range
			wanted[2] = faultNamed(number(parts[0])) + ":" + strconv.FormatInt(place, 10)
		}
		for _, sum := range []func([]byte) [32]byte{nil, sha256.Sum256, other} {
			equal(t, answered(bytes.NewReader(file), sum), wanted)
			equal(t, answered(iotest.OneByteReader(bytes.NewReader(file)), sum), wanted)
			equal(t, answered(iotest.DataErrReader(bytes.NewReader(file)), sum), wanted)
		}
	}
	late := iotest.TimeoutReader(iotest.OneByteReader(bytes.NewReader(unhex(rows(t, "files")[1][0]))))
	equal(t, answered(late, nil)[2], iotest.ErrTimeout.Error())
}

// Another function than SHA-256: what it doesn't find to be the block is left to the library.
func other([]byte) [32]byte { return [32]byte{} }

// The function is asked of each block of DAG-CBOR and of raw bytes, and believed.
func TestSHA256(t *testing.T) {
	raw, _ := NewCID(0x55, 0x12, Name([]byte("raw")).Digest())
	blake, _ := NewCID(0x71, 0x1e, make([]byte, 32))
	inside, _ := NewCID(0x71, 0, []byte{0xf6})
	for _, row := range []struct {
		cid     CID
		block   string
		verdict Verdict
		asked   int
	}{
		{Name([]byte("\xf6")), "\xf6", "ok null", 1}, {Name([]byte("\x18\x17")), "\x18\x17", "refused NonMinimal", 1},
		{raw, "raw", "not read", 1}, {raw, "other", "other bytes", 1}, {Name(nil), "other", "other bytes", 1},
		{blake, "\xf6", "not verified", 0}, {inside, "\xf6", "ok null", 0}, {inside, "\xf5", "other bytes", 0},
	} {
		var file bytes.Buffer
		writer, err := NewCARWriter(&file, nil)
		equal(t, []any{err, writer.put(row.cid.Bytes(), []byte(row.block))}, []any{nil, nil})
		car, err := NewCARReader(&file)
		equal(t, err, nil)
		asked := 0
		car.SHA256 = func(block []byte) [32]byte {
			equal(t, string(block), row.block)
			asked++
			return sha256.Sum256(block)
		}
		section, err := car.Next()
		equal(t, []any{section, err, asked}, []any{Section{row.cid, []byte(row.block), row.verdict}, nil, row.asked})
	}
}

// What a file has is written, and read again, except bytes that are not those of their CID.
func TestWriter(t *testing.T) {
	for _, row := range rows(t, "files") {
		car, err := NewCARReader(bytes.NewReader(unhex(row[0])))
		if err != nil {
			continue
		}
		var file bytes.Buffer
		writer, err := NewCARWriter(&file, car.Roots())
		equal(t, err, nil)
		var wanted []Section
		for section, err := car.Next(); err == nil; section, err = car.Next() {
			length := file.Len()
			verdict, err := writer.Write(section.CID, section.Block)
			if section.Verdict == "other bytes" {
				isRefused(t, err, -22, -1)
				equal(t, file.Len(), length)
				continue
			}
			equal(t, []any{verdict, err}, []any{section.Verdict, nil})
			wanted = append(wanted, section)
		}
		again, err := NewCARReader(&file)
		equal(t, err, nil)
		equal(t, again.Roots(), car.Roots())
		for _, it := range wanted {
			section, err := again.Next()
			equal(t, []any{section, err}, []any{it, nil})
		}
		_, err = again.Next()
		equal(t, err, io.EOF)
	}
	var refusal *Error
	_, err := NewCARWriter(io.Discard, []CID{{}})
	equal(t, []any{errors.As(err, &refusal), refusal.Kind}, []any{true, "InvalidCid"})
	writer, _ := NewCARWriter(io.Discard, nil)
	_, err = writer.Write(CID{}, nil)
	isRefused(t, err, -26, -1)
	writer.writer = failing{}
	_, err = writer.Write(Name(nil), nil)
	equal(t, err, iotest.ErrTimeout)
	writer.writer = io.Discard
	_, err = writer.Write(Name(nil), nil)
	equal(t, err, iotest.ErrTimeout)
	_, err = NewCARWriter(failing{}, nil)
	equal(t, err, iotest.ErrTimeout)
}

type failing struct{}

func (failing) Write([]byte) (int, error) { return 0, iotest.ErrTimeout }

// The name of a number of the library.
func nameOf(code int) string { return Kind(code).String() }

func verdictNamed(code int) Verdict {
	named := map[int]Verdict{9: "not read", -22: "other bytes", -23: "not verified"}
	switch verdict, isNamed := named[code]; {
	case isNamed:
		return verdict
	case code < 0:
		return Verdict("refused " + nameOf(code))
	}
	return Verdict("ok " + nameOf(code))
}

func faultNamed(code int) string {
	if code <= -24 {
		return nameOf(code)
	}
	return "NoBlock"
}

func random(r *rand.Rand, levels int) any {
	sorts := 9
	if levels == 0 {
		sorts = 7
	}
	switch r.Intn(sorts) {
	case 0:
		return nil
	case 1:
		return r.Intn(2) == 1
	case 2:
		return int64(r.Uint64()) >> r.Intn(64)
	case 3:
		return r.Uint64() | 1<<63
	case 4:
		return strings.Repeat("é水\x00", r.Intn(9))
	case 5:
		return bytes.Repeat([]byte{7}, r.Intn(300))
	case 6:
		cid, _ := NewCID(r.Uint64(), r.Uint64(), make([]byte, r.Intn(65)))
		return cid
	case 7:
		list := make([]any, r.Intn(6))
		for i := range list {
			list[i] = random(r, levels-1)
		}
		return list
	}
	entries := map[string]any{}
	for i := r.Intn(6); i > 0; i-- {
		entries[strings.Repeat("k", r.Intn(4))+strconv.Itoa(r.Intn(100))] = random(r, levels-1)
	}
	return entries
}

func TestRandom(t *testing.T) {
	seed := time.Now().UnixNano()
	t.Log("seed", seed)
	r := rand.New(rand.NewSource(seed))
	for i := 0; i < 3000; i++ {
		value := random(r, 5)
		block, err := Marshal(value)
		equal(t, err, nil)
		var again any
		equal(t, []any{Unmarshal(block, &again), again}, []any{nil, value})
		block[r.Intn(len(block))] ^= 1 << r.Intn(8)
		hold(t, block)
	}
}

// What stands of any bytes.
func hold(t *testing.T, block []byte) {
	_, refusal := Check(block)
	var value any
	err := Unmarshal(block, &value)
	equal(t, err, refusal)
	if err == nil {
		again, err := Marshal(value)
		equal(t, []any{again, err}, []any{block, nil})
		var list []any // each part by its type, and so another way
		if Unmarshal(block, &list) == nil && list != nil {
			equal(t, any(list), value)
		}
	}
	_ = Unmarshal(block, new(note))
	holdStream(t, block)
	_, _ = Links(block)
	equal(t, answered(bytes.NewReader(block), nil), answered(bytes.NewReader(block), sha256.Sum256))
}

// A stream has the items that UnmarshalFirst finds, one after the other.
func holdStream(t *testing.T, stream []byte) {
	decoder := NewDecoder(iotest.HalfReader(bytes.NewReader(stream)))
	for left := stream; ; {
		var found, wanted any
		place := decoder.InputOffset()
		equal(t, place, int64(len(stream)-len(left)))
		err := decoder.Decode(&found)
		if len(left) == 0 {
			equal(t, err, io.EOF)
			return
		}
		rest, refusal := UnmarshalFirst(left, &wanted)
		if refusal != nil {
			refusal.(*Error).Place += place
			equal(t, err, refusal)
			return
		}
		equal(t, []any{found, err}, []any{wanted, nil})
		left = rest
	}
}

func FuzzUnmarshal(f *testing.F) {
	for _, name := range []string{"table", "files"} {
		for _, row := range rows(f, name) {
			f.Add(unhex(row[0]))
		}
	}
	f.Fuzz(hold)
}
