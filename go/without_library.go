//go:build !cgo || !((linux && (amd64 || arm64)) || (windows && amd64) || (darwin && (amd64 || arm64)))

// Package odb is over a library in C: build it with CGO_ENABLED=1 and a C compiler, for Linux or macOS on amd64 or arm64, or for
// Windows on amd64.
package odb

const _ = odb_batch_needs_CGO_ENABLED_1_and_a_C_compiler_on_Linux_macOS_or_Windows
