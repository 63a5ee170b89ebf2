package inroot

import (
	"errors"
	"io/fs"
	"os"
	"path/filepath"
	"reflect"
	"syscall"
	"testing"
	"time"
)

// sameAs says where a handle isn't open on what stands at that path.
func sameAs(t *testing.T, handle *Handle, err error, path string) {
	t.Helper()
	must(t, err)
	defer handle.Close()
	about, err := handle.Stat()
	must(t, err)
	there, err := os.Lstat(path)
	must(t, err)
	if !os.SameFile(about, there) {
		t.Errorf("another than %s", path)
	}
}

func TestParts(t *testing.T) {
	top, root := tree(t)
	dir, last, err := root.ResolveParent("in/none")
	sameAs(t, dir, err, filepath.Join(top, "box/a/b"))
	is(t, last, nil, "none")
	_, _, err = root.ResolveParent("in/..")
	fails(t, err, fs.ErrInvalid)
	_, _, err = root.ResolveParent("in/none/")
	fails(t, err, syscall.ENOTDIR)
	dir, last, err = root.With(Directory).ResolveParent("in/none/")
	sameAs(t, dir, err, filepath.Join(top, "box/a/b"))
	is(t, last, nil, "none")
	file, err := root.Open("in/f")
	must(t, err)
	defer file.Close()
	place, err := root.Place(file.File)
	is(t, place, err, "/a/b/f")
	outside, err := os.Open(filepath.Join(top, "outside"))
	must(t, err)
	defer outside.Close()
	_, err = root.Place(outside)
	fails(t, err, syscall.EXDEV)
}

func TestAll(t *testing.T) {
	top, root := tree(t)
	must(t, os.Symlink("../run/pid", filepath.Join(top, "box/a/to")))
	made, err := root.MkfileAll("in/x/y", 0o640, 0o711)
	sameAs(t, made, err, filepath.Join(top, "box/a/b/x/y"))
	_, err = root.MkfileAll("in/x", 0o640, 0o711)
	fails(t, err, syscall.EISDIR)
	_, err = root.MkfileAll("a/to", 0o640, 0o711)
	fails(t, err, fs.ErrNotExist)
	made, err = root.With(Follow).MkfileAll("a/to", 0o640, 0o711)
	sameAs(t, made, err, filepath.Join(top, "box/run/pid"))
	must(t, os.RemoveAll(filepath.Join(top, "box/run")))
	fails(t, root.MkdirAll("a/to", 0o711), fs.ErrNotExist)
	made, err = root.With(Follow).MkdirAllHandle("a/to/x", 0o711)
	sameAs(t, made, err, filepath.Join(top, "box/run/pid/x"))
}

func TestGiven(t *testing.T) {
	top, root := tree(t)
	makes := []func() (*Handle, error){
		func() (*Handle, error) { return root.MknodHandle("in/new", syscall.S_IFREG|0o600, 0) },
		func() (*Handle, error) { return root.MkdirHandle("in/new", 0o700) },
		func() (*Handle, error) { return root.MknodHandle("in/new", syscall.S_IFIFO|0o600, 0) },
		func() (*Handle, error) { return root.SymlinkHandle("text", "in/new") },
		func() (*Handle, error) { return root.LinkHandle("in/f", "in/new") },
	}
	for _, make := range makes {
		handle, err := make()
		sameAs(t, handle, err, filepath.Join(top, "box/a/b/new"))
		_, err = make()
		fails(t, err, fs.ErrExist)
		must(t, os.Remove(filepath.Join(top, "box/a/b/new")))
	}
}

func TestMagicLinks(t *testing.T) {
	whole, err := OpenRoot("/")
	must(t, err)
	defer whole.Close()
	_, err = whole.Resolve("proc/self/cwd")
	fails(t, err, syscall.ELOOP)
	_, err = whole.Stat("proc/self/comm")
	must(t, err)
}

func TestAttributes(t *testing.T) {
	top, root := tree(t)
	handle, err := root.Resolve("in/f")
	must(t, err)
	defer handle.Close()
	must(t, handle.Chmod(0o751|fs.ModeSetuid))
	must(t, handle.Chown(os.Getuid(), -1))
	for _, number := range []int{1 << 32, 1<<32 - 1, -2} {
		fails(t, handle.Chown(number, -1), fs.ErrInvalid)
		fails(t, root.Chown("in/f", -1, number), fs.ErrInvalid)
		fails(t, root.Lchown("up", number, -1), fs.ErrInvalid)
	}
	accessed, modified := time.Unix(5, 6), time.Unix(-7, 8)
	must(t, handle.Chtimes(accessed, modified))
	must(t, root.Chtimes("in/f", time.Time{}, time.Time{}))
	about, err := os.Stat(filepath.Join(top, "box/a/b/f"))
	must(t, err)
	if about.Mode() != 0o751 && about.Mode() != 0o751|fs.ModeSetuid {
		t.Errorf("the mode: %v", about.Mode())
	}
	if !about.ModTime().Equal(modified) {
		t.Errorf("the time: %v", about.ModTime())
	}
}

func TestAttributesOfALink(t *testing.T) {
	top, root := tree(t)
	link, err := root.ResolveNoFollow("up")
	must(t, err)
	defer link.Close()
	fails(t, link.Chmod(0o777), syscall.EOPNOTSUPP)
	must(t, link.Chtimes(time.Unix(1, 0), time.Unix(9, 0)))
	must(t, link.Chown(-1, os.Getgid()))
	about, err := os.Lstat(filepath.Join(top, "box/up"))
	must(t, err)
	if about.ModTime().Unix() != 9 {
		t.Errorf("the link's time: %v", about.ModTime())
	}
	outside, err := os.Stat(filepath.Join(top, "outside"))
	must(t, err)
	if outside.ModTime().Unix() == 9 {
		t.Error("what the link leads to was changed")
	}
}

func TestWhiteout(t *testing.T) {
	top, root := tree(t)
	err := root.RenameWith("in/f", "in/g", RenameWhiteout|RenameNoReplace)
	if errors.Is(err, syscall.EINVAL) || errors.Is(err, syscall.EPERM) {
		t.Skip("the file system makes none here")
	}
	must(t, err)
	about, err := os.Lstat(filepath.Join(top, "box/a/b/f"))
	must(t, err)
	if about.Mode().Type() != fs.ModeDevice|fs.ModeCharDevice || about.Sys().(*syscall.Stat_t).Rdev != 0 {
		t.Errorf("no whiteout: %v", about.Mode())
	}
	fails(t, root.RenameWith("in/g", "in/h", RenameWhiteout|RenameExchange), fs.ErrInvalid)
}

func TestExtendedAttributes(t *testing.T) {
	_, root := tree(t)
	file, err := root.Open("in/f")
	must(t, err)
	defer file.Close()
	handle := &Handle{File: file.File}
	err = handle.Setxattr("user.inroot", []byte("one"), XattrCreate)
	if errors.Is(err, syscall.EOPNOTSUPP) {
		t.Skip("the file system has none")
	}
	must(t, err)
	fails(t, handle.Setxattr("user.inroot", nil, XattrCreate), fs.ErrExist)
	value, err := handle.Getxattr("user.inroot")
	is(t, string(value), err, "one")
	names, err := handle.Listxattr()
	if err != nil || !reflect.DeepEqual(names, []string{"user.inroot"}) {
		t.Errorf("%q, %v", names, err)
	}
	must(t, handle.Removexattr("user.inroot"))
	_, err = handle.Getxattr("user.inroot")
	fails(t, err, syscall.ENODATA)
	_, err = handle.Getxattr("user.\x00")
	fails(t, err, fs.ErrInvalid)
	names, err = handle.Listxattr()
	if err != nil || len(names) != 0 {
		t.Errorf("%q, %v", names, err)
	}
}
