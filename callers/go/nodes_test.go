package dagcbor

import (
	"encoding/hex"
	"strings"
	"testing"
)

// A node of DAG-PB, as Unmarshal reads it out of FromNode, and Marshal writes it for ToNode.
type node struct {
	Data  []byte `json:"Data,omitempty"`
	Links []link
}

type link struct {
	Hash  CID
	Name  *string `json:"Name,omitempty"`
	Tsize *uint64 `json:"Tsize,omitempty"`
}

func TestNodes(t *testing.T) {
	for _, row := range rows(t, "nodes") {
		links, err := NodeLinks(unhex(row[0]))
		if code := number(row[4]); code < 0 {
			isRefused(t, err, code, int64(number(row[2])))
		} else {
			equal(t, words(links), row[5])
		}
		block, err := FromNode(unhex(row[0]))
		if code := number(row[1]); code < 0 {
			place := int64(number(row[2]))
			if nameOf(code) == "NameNotText" {
				place = -1
			}
			isRefused(t, err, code, place)
			continue
		}
		if err != nil {
			t.Fatal(row[0], err)
		}
		equal(t, hex.EncodeToString(block), row[3])
	}
}

func TestModels(t *testing.T) {
	for _, row := range rows(t, "models") {
		block := unhex(row[0])
		made, err := ToNode(block)
		if code := number(row[1]); code < 0 {
			if code > number("-21") {
				isRefused(t, err, code, int64(placeIn(block)))
			} else {
				isRefused(t, err, code, -1)
			}
			continue
		}
		if err != nil {
			t.Fatal(row[0], err)
		}
		equal(t, hex.EncodeToString(made), strings.Trim(row[2], "-"))
	}
}

func TestNodeOfType(t *testing.T) {
	text := "12080a04015500001800" + "0a026869"
	block, err := FromNode(unhex(text))
	if err != nil {
		t.Fatal(err)
	}
	var read node
	if err := Unmarshal(block, &read); err != nil {
		t.Fatal(err)
	}
	equal(t, string(read.Data), "hi")
	equal(t, *read.Links[0].Tsize, uint64(0))
	written, err := Marshal(read)
	if err != nil {
		t.Fatal(err)
	}
	made, err := ToNode(written)
	if err != nil {
		t.Fatal(err)
	}
	equal(t, hex.EncodeToString(made), text)
}
