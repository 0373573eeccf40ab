package dagcbor

/*
#include <dagcbor.h>
*/
import "C"

import (
	"errors"
	"fmt"
)

// ErrNoSuchPath says that a path leads nowhere in its block, or from block to block. That holds for everyone
// who has blocks of these names.
var ErrNoSuchPath = errors.New("dagcbor: the path leads nowhere")

// ErrMissing says that a block on the way is not held, so nothing is known about the path's end.
var ErrMissing = errors.New("dagcbor: no block is held")

// The kind and the bytes of the last item to which a front of the path leads, and what is left of
// the path.
func follow(block []byte, path string) (Kind, []byte, string, error) {
	at, length := from(block)
	text, count := from([]byte(path))
	var places [3]C.size_t
	code := C.dagcbor_follow(at, length, text, count, &places[0])
	switch {
	case code == C.DAGCBOR_PATH_NOT_UTF8:
		return 0, nil, "", refused(C.DAGCBOR_REQUIRE_UTF8, -1)
	case code < 0:
		return 0, nil, "", refusedIn(block, code)
	}
	return Kind(code), block[places[0]:places[1]:places[1]], path[places[2]:], nil
}

// What follow tells, for segments that are each taken whole.
func followSegments(block []byte, segments []string) (Kind, []byte, []string, error) {
	kind, item, _, err := follow(block, "")
	for err == nil && len(segments) > 0 {
		at, length := from(item)
		text, count := from([]byte(segments[0]))
		var place, end C.size_t
		code := C.dagcbor_part(at, length, text, count, &place, &end)
		switch code {
		case C.DAGCBOR_PATH_NOT_UTF8:
			return 0, nil, nil, refused(C.DAGCBOR_REQUIRE_UTF8, -1)
		case C.DAGCBOR_NO_SUCH_PATH:
			return kind, item, segments, nil
		}
		kind, item, segments = Kind(code), item[place:end:end], segments[1:]
	}
	return kind, item, segments, err
}

// Find returns the bytes of the item to which a path such as a/0/b leads in a block. They are a block by
// themselves, over the same memory. Else it returns ErrNoSuchPath. Segments stand between slashes, and empty
// ones say nothing: each is a key of a map, or the index of an item of a list in decimal. A link is an item,
// and nothing is in it.
func Find(block []byte, path string) ([]byte, error) {
	return find(block, path, follow)
}

// FindSegments is Find for a list of segments, each taken whole: it also reaches keys that are empty or have
// slashes.
func FindSegments(block []byte, segments []string) ([]byte, error) {
	return find(block, segments, followSegments)
}

func find[P string | []string](
	block []byte, path P, follow func([]byte, P) (Kind, []byte, P, error),
) ([]byte, error) {
	_, item, left, err := follow(block, path)
	if err == nil && len(left) > 0 {
		return nil, ErrNoSuchPath
	}
	return item, err
}

// Resolve returns the bytes of the item to which the path leads from the block of the root, over links, as
// `ipfs dag get` does; it returns ErrNoSuchPath if the path leads nowhere. Each block on the way is verified,
// so either answer holds for everyone who has blocks of these names. An error of get is handed on; if get
// returns no bytes and no error, that is ErrMissing. A link at the end is the item.
func Resolve(get func(CID) ([]byte, error), root CID, path string) ([]byte, error) {
	return resolve(get, root, path, follow)
}

// ResolveSegments is Resolve for a list of segments, each taken whole.
func ResolveSegments(get func(CID) ([]byte, error), root CID, segments []string) ([]byte, error) {
	return resolve(get, root, segments, followSegments)
}

func resolve[P string | []string](
	get func(CID) ([]byte, error), root CID, path P, follow func([]byte, P) (Kind, []byte, P, error),
) ([]byte, error) {
	for {
		block, err := verified(get, root)
		if err != nil {
			return nil, err
		}
		kind, item, left, err := follow(block, path)
		switch {
		case err != nil || len(left) == 0:
			return item, err
		case kind != Link:
			return nil, ErrNoSuchPath
		}
		links, err := Links(item)
		if err != nil {
			return nil, err
		}
		root, path = links[0], left
	}
}

// The block that is held under the name, if it is the block of that name. A name by the identity hash holds
// its block itself.
func verified(get func(CID) ([]byte, error), cid CID) ([]byte, error) {
	if cid.Defined() && cid.HashCode() == 0 {
		return cid.Digest(), notRead(cid)
	}
	block, err := get(cid)
	switch {
	case err != nil:
		return nil, err
	case block == nil:
		return nil, fmt.Errorf("%w under %v", ErrMissing, cid)
	case Name(block) == cid:
		return block, nil
	}
	if err := Verify(cid, block); err != nil {
		return nil, err
	}
	return block, notRead(cid)
}

// For a CID of another codec.
func notRead(cid CID) error {
	if cid.Codec() == 0x71 {
		return nil
	}
	return refused(C.DAGCBOR_NOT_READ, -1)
}
