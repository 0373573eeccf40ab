// Nanoseconds of each call, the least of RUNS in turn: package RUNS prints a line for each shape of
// data: `Marshal`, `Unmarshal` into its type and into an `any`, of ours, and of fxamacker/cbor.
// package RUNS FILE writes a profile of ours alone.
package main

import (
	"bytes"
	"fmt"
	"math/rand"
	"os"
	"runtime"
	"runtime/pprof"
	"strconv"
	"strings"
	"syscall"

	dagcbor "../../callers/go"
	"github.com/fxamacker/cbor"
)

type person struct {
	Name        string `json:"name"`
	Profession  string `json:"profession"`
	YearOfBirth uint16 `json:"year_of_birth"`
}

type reference struct {
	CID string `json:"cid"`
	URI string `json:"uri"`
}

type reply struct {
	Root   reference `json:"root"`
	Parent reference `json:"parent"`
}

type post struct {
	Type      string   `json:"$type"`
	Text      string   `json:"text"`
	Langs     []string `json:"langs,omitempty"`
	Reply     *reply   `json:"reply,omitempty"`
	CreatedAt string   `json:"createdAt"`
}

func must[T any](value T, err error) T {
	if err != nil {
		panic(err)
	}
	return value
}

// Of the whole process, user and system, with what the collector takes.
func processorTime() int64 {
	var used syscall.Rusage
	must(0, syscall.Getrusage(syscall.RUSAGE_SELF, &used))
	return used.Utime.Nano() + used.Stime.Nano()
}

func run[T any](value T) {
	block, theirs := must(dagcbor.Marshal(value)), must(cbor.CanonicalEncOptions().EncMode())
	if !bytes.Equal(block, must(theirs.Marshal(value))) {
		panic("they write other bytes")
	}
	calls, least := []func(){
		func() { must(dagcbor.Marshal(value)) },
		func() { must(0, dagcbor.Unmarshal(block, new(T))) },
		func() { must(0, dagcbor.Unmarshal(block, new(any))) },
		func() { must(theirs.Marshal(value)) },
		func() { must(0, cbor.Unmarshal(block, new(T))) },
		func() { must(0, cbor.Unmarshal(block, new(any))) },
	}, [6]int64{}
	if len(os.Args) > 2 {
		calls = calls[:3]
	}
	for runs, times := must(strconv.Atoi(os.Args[1])), 8<<20/len(block); runs > 0; runs-- {
		for at, call := range calls {
			runtime.GC()
			start := processorTime()
			for i := 0; i < times; i++ {
				call()
			}
			if took := (processorTime() - start) / int64(times); least[at] == 0 || took < least[at] {
				least[at] = took
			}
		}
	}
	fmt.Println(strings.Trim(fmt.Sprint(least), "[]"))
}

func main() {
	if len(os.Args) > 2 {
		must(0, pprof.StartCPUProfile(must(os.Create(os.Args[2]))))
		defer pprof.StopCPUProfile()
	}
	hopper := person{"Grace Hopper", "computer scientist", 1906}
	people, integers, entries := [1000]person{}, [4744]uint16{}, map[string]uint32{}
	for i := range people {
		people[i], entries[fmt.Sprint("key ", i)] = hopper, uint32(i)
	}
	for i := range integers {
		integers[i] = uint16(256 + i)
	}
	numbers, texts, chance := [10000]int64{}, [2000]string{}, rand.New(rand.NewSource(1))
	for i := range numbers {
		numbers[i] = int64(chance.Uint64()) >> chance.Intn(64)
	}
	words := strings.Fields("съешь же ещё этих мягких французских булок да выпей чаю")
	for i := range texts {
		chance.Shuffle(len(words), func(i, j int) { words[i], words[j] = words[j], words[i] })
		texts[i] = strings.Join(words[:1+chance.Intn(len(words))], " ")
	}
	to := reference{"bafyreihx6gsu5jaqkxgcoj2zzqfnn2c5ha", "at://did:plc:44ybard66vv44zksje25o7dz"}
	text := "I have written this text."
	run(hopper)
	run(people[:])
	run(integers[:])
	run(entries)
	run(post{"app.bsky.feed.post", text, []string{"en"}, &reply{to, to}, "2024-05-01T12:34:56.789Z"})
	run(numbers[:])
	run(texts[:])
}
