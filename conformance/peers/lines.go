// The loop of the peers in Go: a line in, a line out. A word of the command line names what the lines are, if not blocks.
package main

import (
	"bufio"
	"encoding/hex"
	"fmt"
	"os"
)

// Answers a subject: for `writing` from a line, for all else from the bytes of a line of hexadecimal. What comes after
// `ok` is the second value, or else the first in hexadecimal.
type answers func(given []byte) (bytes []byte, words string, err error)

func rewriting(rewrite func(block []byte) ([]byte, error)) answers {
	return func(block []byte) ([]byte, string, error) {
		again, err := rewrite(block)
		return again, "", err
	}
}

func serve(subjects map[string]answers) {
	subject := "blocks"
	if len(os.Args) > 1 {
		subject = os.Args[1]
	}
	lines := bufio.NewReaderSize(os.Stdin, 1<<20)
	for {
		line, err := lines.ReadBytes('\n')
		if err != nil {
			return
		}
		given := line[:len(line)-1]
		if subject != "writing" {
			given, _ = hex.DecodeString(string(given))
		}
		bytes, words, err := subjects[subject](given)
		switch {
		case err != nil:
			fmt.Println("refused", err)
		case words != "":
			fmt.Println("ok", words)
		default:
			fmt.Println("ok", hex.EncodeToString(bytes))
		}
	}
}
