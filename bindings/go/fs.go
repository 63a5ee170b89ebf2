package inroot

import (
	"io/fs"
	"os"
	"sort"
	"syscall"
)

// FS returns the files below the root as an fs.FS, which has also the methods of fs.StatFS, fs.ReadFileFS,
// fs.ReadDirFS, and fs.ReadLinkFS of Go 1.25. Its names are those of fs.ValidPath, else the error is fs.ErrInvalid;
// links are followed below the root. What is opened is a *File.
func (r *Root) FS() fs.FS {
	return rootFS{r}
}

type rootFS struct{ root *Root }

// of gives an error where a name isn't one that an fs.FS takes.
func (f rootFS) of(op, name string) error {
	if !fs.ValidPath(name) {
		return &fs.PathError{Op: op, Path: name, Err: fs.ErrInvalid}
	}
	return nil
}

func (f rootFS) Open(name string) (fs.File, error) {
	if err := f.of("open", name); err != nil {
		return nil, err
	}
	as := f.root.nameOf(name)
	if name == "." {
		as = name // which the status of the root has for its name
	}
	file, err := f.root.openAs(as, name, os.O_RDONLY, 0)
	if err != nil {
		return nil, err
	}
	return file, nil
}

func (f rootFS) Stat(name string) (fs.FileInfo, error) {
	if err := f.of("stat", name); err != nil {
		return nil, err
	}
	return f.root.Stat(name)
}

func (f rootFS) Lstat(name string) (fs.FileInfo, error) {
	if err := f.of("lstat", name); err != nil {
		return nil, err
	}
	return f.root.Lstat(name)
}

func (f rootFS) ReadFile(name string) ([]byte, error) {
	if err := f.of("readfile", name); err != nil {
		return nil, err
	}
	return f.root.ReadFile(name)
}

func (f rootFS) ReadLink(name string) (string, error) {
	if err := f.of("readlink", name); err != nil {
		return "", err
	}
	return f.root.Readlink(name)
}

func (f rootFS) ReadDir(name string) ([]fs.DirEntry, error) {
	if err := f.of("readdir", name); err != nil {
		return nil, err
	}
	file, err := f.root.OpenFile(name, os.O_RDONLY|syscall.O_DIRECTORY, 0)
	if err != nil {
		return nil, err
	}
	defer file.Close()
	entries, err := file.ReadDir(-1)
	sort.Slice(entries, func(i, j int) bool { return entries[i].Name() < entries[j].Name() })
	return entries, err
}
