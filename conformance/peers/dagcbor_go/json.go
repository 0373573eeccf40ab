package main

import (
	"bytes"
	"dagcbor"
	"encoding/base64"
	"encoding/hex"
	"encoding/json"
	"errors"
	"io"
	"math/big"
	"strings"
)

func dataOf(line []byte) (any, error) {
	var found any
	decoder := json.NewDecoder(bytes.NewReader(line))
	decoder.UseNumber()
	if err := decoder.Decode(&found); err != nil {
		return nil, err
	}
	return of(found)
}

// Data of what DAG-JSON tells.
func of(found any) (any, error) {
	switch it := found.(type) {
	case json.Number:
		number, isInteger := new(big.Int).SetString(it.String(), 10)
		if !isInteger {
			return nil, errors.New("a float")
		}
		return number, nil
	case []any:
		for i, part := range it {
			part, err := of(part)
			if err != nil {
				return nil, err
			}
			it[i] = part
		}
	case map[string]any:
		if text, isText := it["/"].(string); isText && len(it) == 1 {
			return dagcbor.ParseCID(text)
		}
		if inner, isMap := it["/"].(map[string]any); isMap && len(it) == 1 {
			return base64.RawStdEncoding.DecodeString(inner["bytes"].(string))
		}
		for key, part := range it {
			part, err := of(part)
			if err != nil {
				return nil, err
			}
			it[key] = part
		}
	}
	return found, nil
}

func joined(cids []dagcbor.CID) string {
	var texts []string
	for _, it := range cids {
		texts = append(texts, it.String())
	}
	if texts == nil {
		return "-"
	}
	return strings.Join(texts, ",")
}

func cidTexts(text []byte) ([]byte, string, error) {
	cid, err := dagcbor.ParseCID(string(text))
	if err != nil {
		return nil, "", err
	}
	return nil, hex.EncodeToString(cid.Bytes()) + " " + cid.String(), nil
}

func files(file []byte) ([]byte, string, error) {
	car, err := dagcbor.NewCARReader(bytes.NewReader(file))
	if err != nil {
		return nil, "", err
	}
	var cids []dagcbor.CID
	for {
		section, err := car.Next()
		if err == io.EOF {
			return nil, joined(car.Roots()) + " " + joined(cids), nil
		}
		if err != nil {
			return nil, "", err
		}
		cids = append(cids, section.CID)
	}
}
