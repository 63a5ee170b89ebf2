// Package inroot has a type Root like os.Root of Go 1.25: its methods act on the files below one directory. It is a
// binding to libinroot.
//
// The difference from os.Root: links stay below the root. A name is walked as after chroot(2) to the root
// (openat2(2), RESOLVE_IN_ROOT), whoever renames directories meanwhile: an absolute name and an absolute link begin
// at the root, and ".." at the root is the root. So a link that leads out leads to what the root has at that place,
// or to nothing. os.Root refuses such a link, and so do the calls of root.With(Beneath). What is promised, and the
// order of the errors, is that of libinroot(7).
//
// An error is an *fs.PathError with the name as it was given, or of two names an *os.LinkError. In it is the
// syscall.Errno of the call, for which errors.Is finds fs.ErrNotExist, fs.ErrExist and fs.ErrPermission, and for
// EINVAL also fs.ErrInvalid; or fs.ErrClosed after a Close. Where a signal interrupts a call that looks or opens, the
// call is made again, as package os does. One that changes something gives EINTR, and nobody knows whether it has.
//
// The name of an opened file lies below that of its root, whatever ".." it was opened by, and is for messages.
// os.Chmod and its like would follow links there out of the root. So would ReadDir of an *os.File; that of a [File]
// doesn't.
//
// A call blocks its thread, and has no deadline. The library is found by pkg-config; with the tag inroot_static its
// archive is linked.
package inroot

// #include <inroot.h>
import "C"

import (
	"errors"
	"io/fs"
	"os"
	"path/filepath"
	"syscall"
)

// oPath is O_PATH, which package syscall doesn't have.
const oPath = 0x200000

// A Root is a directory, below which its methods act. Any number of goroutines may call them at the same time. One
// that nothing refers to any more is closed by the garbage collector.
type Root struct {
	dir   *os.File // it counts the calls that use its descriptor, which is closed behind the last
	flags Flags
}

// OpenRoot opens a directory by its name, which is walked as open(2) does. It need not be readable.
func OpenRoot(name string) (*Root, error) {
	dir, err := os.OpenFile(name, oPath|syscall.O_DIRECTORY, 0)
	if err != nil {
		return nil, err
	}
	return NewRoot(dir), nil
}

// NewRoot returns a Root of a directory that is open, by whatever flags. They are one descriptor: the Root is closed
// where dir is, and the other way round. If dir isn't a directory, each call gives ENOTDIR.
func NewRoot(dir *os.File) *Root {
	return &Root{dir: dir}
}

// OpenRoot opens a directory below the root, as a Root with the same flags. ENOTDIR of anything else.
func (r *Root) OpenRoot(name string) (*Root, error) {
	dir, err := r.OpenFile(name, oPath|syscall.O_DIRECTORY, 0)
	if err != nil {
		return nil, err
	}
	return &Root{dir: dir.File, flags: r.flags}, nil
}

// With returns a view of the root, whose calls take these flags, too:
//
//	err := root.With(inroot.NoXDev).RemoveAll("var/cache")
//
// They are one descriptor: where one of them is closed, so is the other. If flags has another bit, or if the method
// called doesn't take one of them, the call gives EINVAL.
func (r *Root) With(flags Flags) *Root {
	return &Root{dir: r.dir, flags: r.flags | flags}
}

// Name returns the name by which the root was opened, also after Close.
func (r *Root) Name() string {
	return called(r.dir)
}

// Close closes the root. Calls that other goroutines are making end as they would have; each later one gives
// fs.ErrClosed. To close a root again does nothing.
func (r *Root) Close() error {
	if err := r.dir.Close(); !errors.Is(err, fs.ErrClosed) {
		return err
	}
	return nil
}

// nameOf gives the name of a file that is opened below the root: below that of the root, and empty if the root has
// none.
func (r *Root) nameOf(name string) string {
	if r.Name() == "" {
		return ""
	}
	return filepath.Join(r.Name(), filepath.Join("/", name))
}

// Version returns the version of the library that is linked.
func Version() string {
	return C.GoString(C.inroot_version())
}
