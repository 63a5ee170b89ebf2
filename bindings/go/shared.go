//go:build !inroot_static

package inroot

// #cgo pkg-config: inroot
import "C"
