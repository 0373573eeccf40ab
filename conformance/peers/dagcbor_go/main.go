// Our package for Go: blocks, CIDs as text, and CAR files; data to be written is in json.go.
package main

import "dagcbor"

func main() {
	serve(map[string]answers{
		"blocks": rewriting(func(block []byte) ([]byte, error) {
			var data any
			if err := dagcbor.Unmarshal(block, &data); err != nil {
				return nil, err
			}
			return dagcbor.Marshal(data)
		}),
		"writing": rewriting(func(line []byte) ([]byte, error) {
			data, err := dataOf(line)
			if err != nil {
				return nil, err
			}
			return dagcbor.Marshal(data)
		}),
		"cid-texts": cidTexts,
		"files":     files,
	})
}
