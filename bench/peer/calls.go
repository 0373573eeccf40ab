// Does one call of fxamacker/cbor this many times on the block on standard input, and prints how many of them
// succeeded.
package main

import (
	"fmt"
	"io"
	"os"
	"strconv"

	"github.com/fxamacker/cbor"
)

// Record has its fields in key order.
type Record struct {
	Seq  uint32   `cbor:"seq"`
	Link cbor.Tag `cbor:"link"`
	Name string   `cbor:"name"`
	Tags []uint16 `cbor:"tags"`
}

func repeated(times int, call func() bool) (right int) {
	for i := 0; i < times; i++ {
		if call() {
			right++
		}
	}
	return
}

func reads[T any](block []byte, times int) int {
	return repeated(times, func() bool {
		var value T
		return cbor.Unmarshal(block, &value) == nil
	})
}

func writes[T any](block []byte, times int) int {
	var value T
	mode, err := cbor.CanonicalEncOptions().EncMode()
	if err != nil || cbor.Unmarshal(block, &value) != nil {
		return 0
	}
	return repeated(times, func() bool {
		_, err := mode.Marshal(value)
		return err == nil
	})
}

func main() {
	times, err := strconv.Atoi(os.Args[2])
	block, failed := io.ReadAll(os.Stdin)
	if err != nil || failed != nil {
		os.Exit(1)
	}
	calls := map[string]func([]byte, int) int{
		"Valid":             func(b []byte, n int) int { return repeated(n, func() bool { return cbor.Valid(b) == nil }) },
		"Unmarshal[any]":    reads[any],
		"Unmarshal[Record]": reads[Record],
		"Marshal[any]":      writes[any],
		"Marshal[Record]":   writes[Record],
	}
	fmt.Println(calls[os.Args[1]](block, times))
}
