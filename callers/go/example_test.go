package dagcbor_test

import (
	"bytes"
	"dagcbor"
	"errors"
	"fmt"
	"io"
	"os"
	"regexp"
	"strings"
	"testing"
	"time"
)

type Author struct {
	Name string `dagcbor:"name"`
}

type Post struct {
	Author                 // its fields are entries of the post
	Text      string       `dagcbor:"text"`
	CreatedAt time.Time    `dagcbor:"createdAt"`       // a text
	Reply     *dagcbor.CID `dagcbor:"reply,omitempty"` // a link
}

func Example() {
	post := Post{Author{"Ada"}, "hi", time.Unix(0, 0).UTC(), nil}
	block, err := dagcbor.Marshal(post)
	if err != nil {
		panic(err)
	}
	fmt.Printf("%q\n", block)
	fmt.Println(dagcbor.Name(block))

	var again Post
	fmt.Println(dagcbor.Unmarshal(block, &again), again == post)
	var data any
	fmt.Println(dagcbor.Unmarshal(block, &data), data)
	// Output:
	// "\xa3dnamecAdadtextbhiicreatedAtt1970-01-01T00:00:00Z"
	// bafyreicvms355xpjky7ab7mz6janfpzzgtvevgggntarx5k6swk2hlubg4
	// <nil> true
	// <nil> map[createdAt:1970-01-01T00:00:00Z name:Ada text:hi]
}

func ExampleError() {
	_, err := dagcbor.Marshal(map[string]any{"posts": []any{map[string]any{"score": 0.5}}})
	fmt.Println(err)

	var refusal *dagcbor.Error
	err = dagcbor.Unmarshal([]byte("\xa1\x64text\x18\x17"), new(Post))
	fmt.Println(errors.As(err, &refusal), refusal.Kind, refusal.Place)
	err = dagcbor.Unmarshal([]byte("\xa1\x64text\x17"), new(Post))
	fmt.Println(errors.As(err, &refusal), refusal.Kind, refusal.Path, refusal.Type)
	err = dagcbor.Unmarshal([]byte("\xa1\x64te"), new(Post))
	fmt.Println(errors.Is(err, io.ErrUnexpectedEOF))
	// Output:
	// dagcbor: float64 is not written: floats are left out of these blocks, in .posts[0].score
	// true NonMinimal 7
	// true Type [text] string
	// true
}

func ExampleDecoder() {
	var stream bytes.Buffer
	encoder := dagcbor.NewEncoder(&stream)
	for _, name := range []string{"Ada", "Grace"} {
		if err := encoder.Encode(Author{name}); err != nil {
			panic(err)
		}
	}

	decoder := dagcbor.NewDecoder(&stream)
	decoder.DisallowUnknownFields()
	for {
		var author Author
		err := decoder.Decode(&author)
		if err == io.EOF {
			break
		}
		fmt.Println(author, err)
	}
	// Output:
	// {Ada} <nil>
	// {Grace} <nil>
}

func ExampleNewCARReader() {
	block := []byte("\xa1dtextbhi")
	cid := dagcbor.Name(block)

	var file bytes.Buffer
	writer, err := dagcbor.NewCARWriter(&file, []dagcbor.CID{cid})
	if err != nil {
		panic(err)
	}
	if _, err := writer.Write(cid, block); err != nil {
		panic(err)
	}

	reader, err := dagcbor.NewCARReader(&file)
	if err != nil {
		panic(err)
	}
	section, err := reader.Next() // and io.EOF after the last
	fmt.Println(section.CID == cid, section.Verdict, err)
	item, err := dagcbor.Find(section.Block, "text")
	fmt.Printf("%q %v\n", item, err)
	// Output:
	// true ok map <nil>
	// "bhi" <nil>
}

// The examples of the README are these.
func TestReadme(t *testing.T) {
	page, err := os.ReadFile("README.md")
	if err != nil {
		t.Fatal(err)
	}
	file, err := os.ReadFile("example_test.go")
	if err != nil {
		t.Fatal(err)
	}
	lines := regexp.MustCompile(`(?m)^\t`).ReplaceAllString(string(file), "")
	examples := regexp.MustCompile("(?s)```go\n(.*?)```").FindAllStringSubmatch(string(page), -1)
	for _, it := range examples {
		if !strings.Contains(string(file), it[1]) && !strings.Contains(lines, it[1]) {
			t.Errorf("not in example_test.go:\n%s", it[1])
		}
	}
	if len(examples) < 5 {
		t.Error("examples are missing")
	}
}
