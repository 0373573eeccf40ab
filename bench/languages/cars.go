// Seconds of the processor for one go through a CAR file: cars FILE COUNT
//
// Prints them in a line: of the library's digests, and of those of crypto/sha256.
package main

import (
	"bufio"
	"crypto/sha256"
	"fmt"
	"io"
	"os"
	"strconv"
	"strings"
	"syscall"

	dagcbor "../../callers/go"
)

func must[T any](value T, err error) T {
	if err != nil {
		panic(err)
	}
	return value
}

func seconds() float64 {
	var used syscall.Rusage
	must(0, syscall.Getrusage(syscall.RUSAGE_SELF, &used))
	return float64(used.Utime.Nano()+used.Stime.Nano()) / 1e9
}

func run(sum func([]byte) [32]byte) float64 {
	began := seconds()
	file := must(os.Open(os.Args[1]))
	car := must(dagcbor.NewCARReader(bufio.NewReader(file)))
	car.SHA256 = sum
	count := 0
	for section, err := car.Next(); err != io.EOF; section, err = car.Next() {
		if must(section, err); strings.HasPrefix(string(section.Verdict), "ok ") {
			count++
		}
	}
	if count != must(strconv.Atoi(os.Args[2])) {
		panic(count)
	}
	return seconds() - began
}

func main() { fmt.Println(run(nil), run(sha256.Sum256)) }
