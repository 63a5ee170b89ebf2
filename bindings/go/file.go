package inroot

import (
	"errors"
	"io/fs"
	"os"
	"syscall"
)

// A File is open for use. It has the methods of its *os.File: hand file.File to a function that takes one. ReadDir and
// Readdir are its own, since those of package os look at an entry by the directory's name, along the links of the
// host.
type File struct{ *os.File }

// usable returns a file that was opened for use. Where it is a FIFO, a read waits as one of package os does: it has a
// deadline, and ends where the file is closed.
func usable(fd int, name string) *File {
	var about syscall.Stat_t
	if syscall.Fstat(fd, &about) == nil && about.Mode&syscall.S_IFMT == syscall.S_IFIFO {
		syscall.SetNonblock(fd, true)
	}
	return &File{os.NewFile(uintptr(fd), name)}
}

// ReadDir returns entries of the directory as the method of os.File does, with their status, which Info returns also
// after Close. It looks at them in this very directory, and leaves out what is removed meanwhile.
func (f *File) ReadDir(count int) ([]fs.DirEntry, error) {
	infos, err := f.Readdir(count)
	entries := make([]fs.DirEntry, 0, len(infos))
	for _, info := range infos {
		entries = append(entries, fs.FileInfoToDirEntry(info))
	}
	return entries, err
}

// Readdir does the same, and returns the status of each entry; of a link that of the link itself.
func (f *File) Readdir(count int) ([]fs.FileInfo, error) {
	for {
		names, err := f.Readdirnames(count)
		infos, failed := f.infosOf(names)
		if failed != nil {
			return infos, failed
		}
		if err != nil || len(infos) > 0 || count <= 0 {
			return infos, err
		}
	}
}

// infosOf returns the status of those entries that are there still.
func (f *File) infosOf(names []string) ([]fs.FileInfo, error) {
	infos := make([]fs.FileInfo, 0, len(names))
	for _, name := range names {
		info, err := NewRoot(f.File).Lstat(name)
		if err == nil {
			infos = append(infos, info)
		} else if !errors.Is(err, fs.ErrNotExist) {
			return infos, &fs.PathError{Op: "lstatat", Path: f.Name() + "/" + name, Err: errors.Unwrap(err)}
		}
	}
	return infos, nil
}
