// Untried here. go-ipld-prime, with the strictest options of its codec DAG-CBOR: in this folder
//
//	cp ../../lines.go . && go mod init peer && go get github.com/ipld/go-ipld-prime && go build -o peer . && ../../../run ./peer
package main

import (
	"bytes"

	"github.com/ipld/go-ipld-prime/codec/dagcbor"
	"github.com/ipld/go-ipld-prime/node/basicnode"
)

func main() {
	options := dagcbor.DecodeOptions{AllowLinks: true, ExperimentalDeterminism: true}
	serve(map[string]answers{"blocks": rewriting(func(block []byte) ([]byte, error) {
		builder := basicnode.Prototype.Any.NewBuilder()
		if err := options.Decode(builder, bytes.NewReader(block)); err != nil {
			return nil, err
		}
		var again bytes.Buffer
		err := dagcbor.Encode(builder.Build(), &again)
		return again.Bytes(), err
	})})
}
