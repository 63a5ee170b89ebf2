//go:build !linux || !cgo || !(amd64 || arm64)

package inroot

// libinroot is there for 64-bit Linux on amd64 and arm64 alone, and Go reaches it by cgo.
var _ = libinroot_is_there_for_linux_on_amd64_and_arm64_alone_and_needs_cgo
