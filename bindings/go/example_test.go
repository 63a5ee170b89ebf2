package inroot_test

import (
	"errors"
	"fmt"
	"io"
	"io/fs"
	"log"
	"os"
	"path/filepath"
	"syscall"

	"gimowheta.example/inroot"
)

// box makes a directory with etc/conf, and a link to the passwd of the host.
func box() string {
	dir, err := os.MkdirTemp("", "box")
	if err == nil {
		err = os.Mkdir(filepath.Join(dir, "etc"), 0o755)
	}
	if err == nil {
		err = os.WriteFile(filepath.Join(dir, "etc/conf"), []byte("inside\n"), 0o644)
	}
	if err == nil {
		err = os.Symlink("/etc/passwd", filepath.Join(dir, "users"))
	}
	if err != nil {
		log.Fatal(err)
	}
	return dir
}

func Example() {
	dir := box()
	defer os.RemoveAll(dir)
	root, err := inroot.OpenRoot(dir)
	if err != nil {
		log.Fatal(err)
	}
	defer root.Close()

	file, err := root.Open("../../etc/conf")
	if err != nil {
		log.Fatal(err)
	}
	defer file.Close()
	if _, err = io.Copy(os.Stdout, file); err != nil {
		log.Fatal(err)
	}
	// The link leads to etc/passwd below the root, which isn't there.
	_, err = root.ReadFile("users")
	fmt.Println(errors.Is(err, fs.ErrNotExist), err)
	// Output:
	// inside
	// true openat users: no such file or directory
}

func ExampleRoot_With() {
	dir := box()
	defer os.RemoveAll(dir)
	root, err := inroot.OpenRoot(dir)
	if err != nil {
		log.Fatal(err)
	}
	defer root.Close()

	_, err = root.With(inroot.Beneath).Open("users")
	fmt.Println(err)
	err = root.With(inroot.NoLinks).Mkdir("users/new", 0o755)
	fmt.Println(err)
	// Output:
	// openat users: invalid cross-device link
	// mkdirat users/new: too many levels of symbolic links
}

func ExampleRoot_FS() {
	dir := box()
	defer os.RemoveAll(dir)
	root, err := inroot.OpenRoot(dir)
	if err != nil {
		log.Fatal(err)
	}
	defer root.Close()

	err = fs.WalkDir(root.FS(), ".", func(path string, entry fs.DirEntry, err error) error {
		fmt.Println(path, entry.Type())
		return err
	})
	if err != nil {
		log.Fatal(err)
	}
	// Output:
	// . d---------
	// etc d---------
	// etc/conf ----------
	// users L---------
}

// An image's layer sets the owner before the mode, and both of what it has made, wherever that is moved meanwhile.
func ExampleRoot_MknodHandle() {
	dir := box()
	defer os.RemoveAll(dir)
	root, err := inroot.OpenRoot(dir)
	if err != nil {
		log.Fatal(err)
	}
	defer root.Close()

	fifo, err := root.MknodHandle("etc/fifo", syscall.S_IFIFO|0o600, 0)
	if err != nil {
		log.Fatal(err)
	}
	defer fifo.Close()
	if err = fifo.Chown(os.Getuid(), os.Getgid()); err != nil {
		log.Fatal(err)
	}
	if err = fifo.Chmod(0o640); err != nil {
		log.Fatal(err)
	}
	about, err := root.Stat("etc/fifo")
	fmt.Println(about.Mode(), err)
	// Output: prw-r----- <nil>
}

// A file is written whole before anybody sees it.
func ExampleRoot_CreateUnnamed() {
	dir := box()
	defer os.RemoveAll(dir)
	root, err := inroot.OpenRoot(dir)
	if err != nil {
		log.Fatal(err)
	}
	defer root.Close()

	file, err := root.CreateUnnamed("etc", 0o644)
	if err != nil {
		log.Fatal(err)
	}
	defer file.Close()
	if _, err = file.WriteString("whole"); err != nil {
		log.Fatal(err)
	}
	if err = root.LinkFile(file.File, "etc/new"); err != nil {
		log.Fatal(err)
	}
	text, err := root.ReadFile("etc/new")
	fmt.Println(string(text), err)
	// Output: whole <nil>
}
