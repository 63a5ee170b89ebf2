package securejoin

import (
	"errors"
	"fmt"
	"os"
	"syscall"

	"gimowheta.example/inroot"
)

var errInvalidMode = errors.New("invalid permission mode")

// fileOf gives the file of a handle.
func fileOf(handle *inroot.Handle, err error) (*os.File, error) {
	if err != nil {
		return nil, err
	}
	return handle.File, nil
}

// OpenInRoot opens an O_PATH handle of what unsafePath leads to below the directory root.
func OpenInRoot(root, unsafePath string) (*os.File, error) {
	directory, err := inroot.OpenRoot(root)
	if err != nil {
		return nil, err
	}
	defer directory.Close()
	return fileOf(directory.Resolve(unsafePath))
}

// OpenatInRoot is OpenInRoot below a directory that is open.
func OpenatInRoot(root *os.File, unsafePath string) (*os.File, error) {
	return fileOf(inroot.NewRoot(root).Resolve(unsafePath))
}

// Reopen opens for use what a handle has open.
func Reopen(handle *os.File, flags int) (*os.File, error) {
	file, err := (&inroot.Handle{File: handle}).Reopen(flags)
	if err != nil {
		return nil, err
	}
	return file.File, nil
}

// MkdirAllHandle makes a directory below root, and those above it, and gives the last one, open for reading.
func MkdirAllHandle(root *os.File, unsafePath string, mode os.FileMode) (*os.File, error) {
	if mode&^(os.ModePerm|os.ModeSticky) != 0 {
		return nil, fmt.Errorf("%w for mkdir 0o%.3o", errInvalidMode, mode)
	}
	made, err := inroot.NewRoot(root).MkdirAllHandle(unsafePath, mode)
	if err != nil {
		return nil, err
	}
	defer made.Close()
	return Reopen(made.File, syscall.O_DIRECTORY|syscall.O_CLOEXEC)
}

// MkdirAll is MkdirAllHandle below a directory by its path, and keeps nothing open.
func MkdirAll(root, unsafePath string, mode os.FileMode) error {
	directory, err := os.OpenFile(root, syscall.O_DIRECTORY|syscall.O_CLOEXEC, 0)
	if err != nil {
		return err
	}
	defer directory.Close()
	made, err := MkdirAllHandle(directory, unsafePath, mode)
	if err != nil {
		return err
	}
	return made.Close()
}
