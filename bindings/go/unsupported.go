//go:build !cgo || !linux

package rtr

// No other file of this package is compiled on such a system, so this is the compiler's only error.
const _ uint8 = "package rtr needs Linux, CGO_ENABLED=1 and a C compiler"
