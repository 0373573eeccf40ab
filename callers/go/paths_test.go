package dagcbor

import (
	"bytes"
	"errors"
	"strings"
	"testing"
	"unicode/utf8"
)

func TestPaths(t *testing.T) {
	all := rows(t, "paths")
	for _, row := range all {
		block, path, code := unhex(row[0]), string(unhex(row[1])), number(row[2])
		found, err := Find(block, path)
		switch {
		case code == -37:
			equal(t, utf8.ValidString(path), false)
			isRefused(t, err, -8, -1)
		case code < 0:
			equal(t, errors.As(err, new(*Error)), true)
		case number(row[5]) < len(path):
			equal(t, err, ErrNoSuchPath)
		default:
			equal(t, err, nil)
			equal(t, found, block[number(row[3]):number(row[4])])
		}
	}
	equal(t, len(all) > 1000, true)
}

func TestSegments(t *testing.T) {
	all := rows(t, "segments")
	for _, row := range all {
		block, code := unhex(row[0]), number(row[2])
		var segments []string
		for _, it := range strings.FieldsFunc(row[1], func(it rune) bool { return it == '/' }) {
			segments = append(segments, string(unhex(it)))
		}
		found, err := FindSegments(block, segments)
		switch {
		case code == -37:
			isRefused(t, err, -8, -1)
		case code == -36:
			equal(t, err, ErrNoSuchPath)
		case code < 0:
			equal(t, errors.As(err, new(*Error)), true)
		default:
			equal(t, err, nil)
			equal(t, found, block[number(row[3]):number(row[4])])
		}
	}
	equal(t, len(all) > 1000, true)
}

// The block of a value, put under its name.
func put(held map[CID][]byte, value any) CID {
	block, err := Marshal(value)
	if err != nil {
		panic(err)
	}
	held[Name(block)] = block
	return Name(block)
}

func TestResolve(t *testing.T) {
	held := map[CID][]byte{}
	raw, _ := NewCID(0x55, 0x12, Name([]byte("raw")).Digest())
	held[raw] = []byte("raw")
	inside, _ := NewCID(0x71, 0, []byte("\x81\x05"))
	leaf := put(held, map[string]any{"b": []any{1, nil}})
	lost := Name([]byte("none is held"))
	root := put(held, map[string]any{"links": []any{leaf, lost, raw, inside}})
	only := put(held, leaf)
	get := func(cid CID) ([]byte, error) { return held[cid], nil }
	for path, wanted := range map[string]string{
		"links/0/b/0": "\x01", "//links//0//b//1//": "\xf6", "links/0/b/01": "", "links/0/b/2": "", "links/0/c": "",
		"links/9": "", "links/3/0": "\x05", "links/3/1": "", "links/0/b/0/x": "", "": string(held[root]),
		strings.Repeat("x", 1000000): "", "links/" + strings.Repeat("9", 5000): "",
	} {
		found, err := Resolve(get, root, path)
		if wanted == "" {
			equal(t, err, ErrNoSuchPath)
		} else {
			equal(t, err, nil)
			equal(t, string(found), wanted)
		}
	}
	link, err := Resolve(get, root, "links/2")
	equal(t, err, nil)
	equal(t, bytes.HasSuffix(link, raw.Bytes()), true)
	found, err := Resolve(get, only, "b/0")
	equal(t, err, nil)
	equal(t, string(found), "\x01")

	_, err = Resolve(get, root, "links/1/x")
	equal(t, errors.Is(err, ErrMissing), true)
	fault := errors.New("a fault")
	_, err = Resolve(func(CID) ([]byte, error) { return nil, fault }, root, "")
	equal(t, err, fault)
	_, err = Resolve(get, root, "links/2/x")
	isRefused(t, err, 9, -1)
	held[leaf] = []byte{5}
	_, err = Resolve(get, root, "links/0/b")
	isRefused(t, err, -22, -1)
	other, _ := NewCID(0x71, 0x1b, make([]byte, 32))
	held[other] = []byte{5}
	_, err = Resolve(get, other, "")
	isRefused(t, err, -23, -1)
}

func TestResolveSegments(t *testing.T) {
	held := map[CID][]byte{}
	leaf := put(held, map[string]any{"b": []any{1, nil}, "": 3})
	inner := put(held, map[string]any{"": map[string]any{"/": "found"}, "c/d": []any{leaf}})
	lost := Name([]byte("none is held"))
	root := put(held, map[string]any{"a/b": []any{inner, lost}, "": leaf})
	get := func(cid CID) ([]byte, error) { return held[cid], nil }
	for _, row := range []struct {
		wanted   string
		segments []string
	}{
		{string(held[root]), nil}, {"\xa1\x61/\x65found", []string{"a/b", "0", ""}},
		{"\x65found", []string{"a/b", "0", "", "/"}}, {"\xf6", []string{"a/b", "0", "c/d", "0", "b", "1"}},
		{"\x03", []string{"", ""}}, {"", []string{"a", "b", "0"}}, {"", []string{"a/b", "0", "/"}},
		{"", []string{"a/b", "", "0"}}, {"", []string{"", "b", ""}}, {"", []string{"a/b/0"}}, {"", make([]string, 5000)},
	} {
		found, err := ResolveSegments(get, root, row.segments)
		if row.wanted == "" {
			equal(t, err, ErrNoSuchPath)
		} else {
			equal(t, err, nil)
			equal(t, string(found), row.wanted)
		}
	}
	_, err := ResolveSegments(get, root, []string{"a/b", "1", ""})
	equal(t, errors.Is(err, ErrMissing), true)
	held[inner] = []byte{5}
	_, err = ResolveSegments(get, root, []string{"a/b", "0", ""})
	isRefused(t, err, -22, -1)
}
