// ugorji/go/codec: its CborHandle, with the canonical option and UTF-8 validated.
package main

import (
	"errors"

	"github.com/ugorji/go/codec"
)

func main() {
	handle := &codec.CborHandle{}
	handle.Canonical, handle.ValidateUnicode, handle.IndefiniteLength = true, true, false
	serve(map[string]answers{"blocks": rewriting(func(block []byte) (again []byte, err error) {
		var data interface{}
		decoder := codec.NewDecoderBytes(block, handle)
		if err := decoder.Decode(&data); err != nil {
			return nil, errors.New("error")
		}
		if decoder.NumBytesRead() < len(block) {
			return nil, errors.New("trailing")
		}
		err = codec.NewEncoderBytes(&again, handle).Encode(data)
		return again, err
	})})
}
