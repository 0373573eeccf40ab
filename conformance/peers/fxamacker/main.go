// fxamacker/cbor with its strictest options, and its canonical encoder of RFC 7049, with floats of 64 bits.
package main

import (
	"bytes"
	"errors"
	"reflect"

	"github.com/fxamacker/cbor/v2"
)

func main() {
	options := cbor.DecOptions{DupMapKey: cbor.DupMapKeyEnforcedAPF, IndefLength: cbor.IndefLengthForbidden, MaxNestedLevels: 256}
	options.DefaultMapType = reflect.TypeOf(map[string]interface{}(nil))
	decoding, _ := options.DecMode()
	encoding, _ := cbor.EncOptions{Sort: cbor.SortCanonical, ShortestFloat: cbor.ShortestFloatNone}.EncMode()
	serve(map[string]answers{"blocks": rewriting(func(block []byte) ([]byte, error) {
		var data interface{}
		decoder := decoding.NewDecoder(bytes.NewReader(block))
		if err := decoder.Decode(&data); err != nil || int(decoder.NumBytesRead()) < len(block) {
			return nil, errors.New("error")
		}
		return encoding.Marshal(data)
	})})
}
