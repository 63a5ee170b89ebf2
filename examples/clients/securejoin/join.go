// Package securejoin has the import path of github.com/cyphar/filepath-securejoin, and its functions, over libinroot.
//
// The functions of handles (OpenInRoot, OpenatInRoot, Reopen, MkdirAll, MkdirAllHandle) are libinroot's calls. What
// they open or make is below the root whoever renames directories meanwhile.
//
// SecureJoin and SecureJoinVFS give a text, as those of the original do. A text tells where a path led when it was
// read: whoever walks it again may be led elsewhere. A program that has to be safe while others rename opens a handle
// in place of it.
package securejoin

import (
	"errors"
	"os"
	"path/filepath"
	"strings"
	"syscall"
)

// linksMax is how many links a path may lead through, as in the original.
const linksMax = 255

// VFS is what SecureJoinVFS asks of a file system.
type VFS interface {
	Lstat(name string) (os.FileInfo, error)
	Readlink(name string) (string, error)
}

// machine is the file system of the machine.
type machine struct{}

func (machine) Lstat(name string) (os.FileInfo, error) { return os.Lstat(name) }
func (machine) Readlink(name string) (string, error)   { return os.Readlink(name) }

// IsNotExist tells whether an error says that a path leads to nothing, as where a directory on the way is none.
func IsNotExist(err error) bool {
	return errors.Is(err, os.ErrNotExist) || errors.Is(err, syscall.ENOTDIR)
}

// SecureJoin gives the text of where unsafePath leads below root, as links tell it now.
func SecureJoin(root, unsafePath string) (string, error) {
	return SecureJoinVFS(root, unsafePath, nil)
}

// SecureJoinVFS is SecureJoin in a file system of the caller's; nil is that of the machine.
func SecureJoinVFS(root, unsafePath string, vfs VFS) (string, error) {
	if vfs == nil {
		vfs = machine{}
	}
	at, left := "/", unsafePath
	for links := 0; left != ""; {
		part, rest, _ := strings.Cut(left, "/")
		left = rest
		next := filepath.Join(at, part)
		text, err := linkAt(vfs, filepath.Join(root, next), next != at && part != "..")
		switch {
		case err != nil:
			return "", err
		case text == "":
			at = next
			continue
		}
		if links++; links > linksMax {
			return "", &os.PathError{Op: "SecureJoin", Path: root + "/" + unsafePath, Err: syscall.ELOOP}
		}
		if filepath.IsAbs(text) {
			at = "/"
		}
		left = text + "/" + left
	}
	return filepath.Join(root, at), nil
}

// linkAt gives the text of a link, and none of anything else. Where nothing was added to the path, there is none.
func linkAt(vfs VFS, name string, isAdded bool) (string, error) {
	if !isAdded {
		return "", nil
	}
	status, err := vfs.Lstat(name)
	switch {
	case err != nil && IsNotExist(err):
		return "", nil
	case err != nil:
		return "", err
	case status.Mode()&os.ModeSymlink == 0:
		return "", nil
	}
	return vfs.Readlink(name)
}
