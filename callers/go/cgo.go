//go:build !cgo

package dagcbor

// The compiler names what is missing.
var _ = this_package_wants_cgo_by_CGO_ENABLED_1_and_a_C_compiler
