package inroot

import (
	"errors"
	"fmt"
	"io"
	"io/fs"
	"os"
	"path/filepath"
	"strings"
	"syscall"
	"testing"
	"time"
)

// A doing is a method, and what does the same by package os in a tree without links that lead out. Both give some
// text.
type doing struct {
	own  func(root *Root, name ...string) (string, error)
	like func(name ...string) (string, error)
}

// one has those of one name that give nothing, and two those of two.
func one(own func(root *Root, name string) error, like func(name string) error) doing {
	return doing{
		func(root *Root, name ...string) (string, error) { return "", own(root, name[0]) },
		func(name ...string) (string, error) { return "", like(name[0]) },
	}
}

func two(own func(root *Root, oldname, newname string) error, like func(oldname, newname string) error) doing {
	return doing{
		func(root *Root, name ...string) (string, error) { return "", own(root, name[0], name[1]) },
		func(name ...string) (string, error) { return "", like(name[0], name[1]) },
	}
}

// opens has those that give a file, which is read where it can be, and then written where it can be.
func opens(own func(root *Root, name string) (*File, error), like func(name string) (*os.File, error)) doing {
	use := func(file *os.File) (string, error) {
		defer file.Close()
		text, unread := io.ReadAll(file)
		_, unwritten := file.WriteString("written")
		about, err := file.Stat()
		return fmt.Sprintf("%q %v %v %v", text, errorOf(unread), errorOf(unwritten), about.Mode()), err
	}
	return doing{
		func(root *Root, name ...string) (string, error) {
			file, err := own(root, name[0])
			if err != nil {
				return "", err
			}
			return use(file.File)
		},
		func(name ...string) (string, error) {
			file, err := like(name[0])
			if err != nil {
				return "", err
			}
			return use(file)
		},
	}
}

// texts has those that give one, and states those that give a status.
func texts(own func(root *Root, name string) (string, error), like func(name string) (string, error)) doing {
	return doing{
		func(root *Root, name ...string) (string, error) { return own(root, name[0]) },
		func(name ...string) (string, error) { return like(name[0]) },
	}
}

func states(own func(root *Root, name string) (fs.FileInfo, error), like func(name string) (fs.FileInfo, error)) doing {
	told := func(about fs.FileInfo, err error) (string, error) {
		if err != nil {
			return "", err
		}
		return fmt.Sprint(about.Name(), about.Size(), about.Mode()), nil
	}
	return doing{
		func(root *Root, name ...string) (string, error) { return told(own(root, name[0])) },
		func(name ...string) (string, error) { return told(like(name[0])) },
	}
}

// opensBy has OpenFile with that flag.
func opensBy(flag int) doing {
	return opens(func(root *Root, name string) (*File, error) { return root.OpenFile(name, flag, 0o640) },
		func(name string) (*os.File, error) { return os.OpenFile(name, flag, 0o640) })
}

var early, late = time.Unix(5, 6), time.Unix(7, 8)

var doings = map[string]doing{
	"Open":           opens((*Root).Open, os.Open),
	"Create":         opens((*Root).Create, os.Create),
	"OpenFile RDWR":  opensBy(os.O_RDWR),
	"OpenFile EXCL":  opensBy(os.O_RDWR | os.O_CREATE | os.O_EXCL),
	"OpenFile TRUNC": opensBy(os.O_WRONLY | os.O_TRUNC),
	"OpenFile apart": opensBy(os.O_RDWR | os.O_CREATE | os.O_APPEND),
	"OpenRoot": states(func(root *Root, name string) (fs.FileInfo, error) {
		sub, err := root.OpenRoot(name)
		if err != nil {
			return nil, err
		}
		defer sub.Close()
		return sub.Stat(".")
	}, func(name string) (fs.FileInfo, error) {
		file, err := os.OpenFile(name, os.O_RDONLY|syscall.O_DIRECTORY, 0)
		if err != nil {
			return nil, err
		}
		defer file.Close()
		return os.Stat(name + "/.")
	}),
	"Mkdir": one(func(root *Root, name string) error { return root.Mkdir(name, 0o750) },
		func(name string) error { return os.Mkdir(name, 0o750) }),
	"MkdirAll": one(func(root *Root, name string) error { return root.MkdirAll(name, 0o750) },
		func(name string) error { return os.MkdirAll(name, 0o750) }),
	"Remove":    one((*Root).Remove, os.Remove),
	"RemoveAll": one((*Root).RemoveAll, os.RemoveAll),
	"Rename":    two((*Root).Rename, os.Rename),
	"Link":      two((*Root).Link, os.Link),
	"Readlink":  texts((*Root).Readlink, os.Readlink),
	"Stat":      states((*Root).Stat, os.Stat),
	"Lstat":     states((*Root).Lstat, os.Lstat),
	"Symlink": one(func(root *Root, name string) error {
		err := root.Symlink("some/text", name)
		var told *os.LinkError
		if errors.As(err, &told) && told.Old == "some/text" {
			return &fs.PathError{Op: told.Op, Path: told.New, Err: told.Err}
		}
		return err
	}, func(name string) error { return os.Symlink("some/text", name) }),
	"Chmod": one(func(root *Root, name string) error { return root.Chmod(name, 0o711|fs.ModeSticky) },
		func(name string) error { return os.Chmod(name, 0o711|fs.ModeSticky) }),
	"Chown": one(func(root *Root, name string) error { return root.Chown(name, os.Getuid(), -1) },
		func(name string) error { return os.Chown(name, os.Getuid(), -1) }),
	"Lchown": one(func(root *Root, name string) error { return root.Lchown(name, -1, os.Getgid()) },
		func(name string) error { return os.Lchown(name, -1, os.Getgid()) }),
	"Chtimes": one(func(root *Root, name string) error { return root.Chtimes(name, early, late) },
		func(name string) error { return os.Chtimes(name, early, late) }),
	"ReadFile": texts(func(root *Root, name string) (string, error) {
		text, err := root.ReadFile(name)
		return string(text), err
	}, func(name string) (string, error) {
		text, err := os.ReadFile(name)
		return string(text), err
	}),
	"WriteFile": one(func(root *Root, name string) error { return root.WriteFile(name, []byte("new"), 0o604) },
		func(name string) error { return os.WriteFile(name, []byte("new"), 0o604) }),
}

// plain makes a tree, whose links lead to what is below it.
func plain(t *testing.T) string {
	top := t.TempDir()
	must(t, os.MkdirAll(filepath.Join(top, "d/e"), 0o755))
	must(t, os.Mkdir(filepath.Join(top, "empty"), 0o755))
	must(t, os.WriteFile(filepath.Join(top, "d/f"), []byte("text"), 0o644))
	links := map[string]string{"link": "d/f", "dir": "d", "dangling": "none", "loop": "loop", "d/above": "../d/f"}
	for name, text := range links {
		must(t, os.Symlink(text, filepath.Join(top, name)))
	}
	return top
}

// errorOf gives the number in an error, or else what the error is.
func errorOf(err error) interface{} {
	var number syscall.Errno
	if errors.As(err, &number) {
		return number
	}
	return err
}

// tells says whether an error is of the type that it should be, and has the names as they were given.
func tells(err error, name []string) bool {
	var path *fs.PathError
	var link *os.LinkError
	switch {
	case err == nil:
		return true
	case errors.As(err, &path):
		return len(name) == 1 && path.Path == name[0]
	case errors.As(err, &link):
		return len(name) == 2 && link.Old == name[0] && link.New == name[1]
	}
	return false
}

func timesOf(t *testing.T, dir string) (all string) {
	for _, name := range []string{"d/f", "empty"} {
		if about, err := os.Stat(filepath.Join(dir, name)); err == nil && about.ModTime().Equal(late) {
			all += name
		}
	}
	return all
}

// differs are those where package os does otherwise.
var differs = map[string]string{
	"MkdirAll dangling":   "a link whose target is missing is ENOENT, and for os EEXIST",
	"MkdirAll dangling/x": "the same",
	"MkdirAll loop/x":     "a link that leads to itself is ELOOP, and for os EEXIST",
	"RemoveAll d/..":      "the last part is no name: EINVAL. os removes what it can",
}

// isOdd says whether the library has an error of its own for a name: the last part is no name, or ends in a slash.
func isOdd(name string) bool {
	last := name[strings.LastIndexByte(name, '/')+1:]
	return last == "" || last == "." || last == ".."
}

func TestLikeOS(t *testing.T) {
	old := syscall.Umask(0o022)
	defer syscall.Umask(old)
	names := append(strings.Fields(". d d/f d/e d/e/ link dir dir/e dir/ d/above dangling empty empty/ new new/ d/.."),
		"d//e/../f", "./d/f", "d/f/", "d/f/x", "none/x", "link/", "dangling/x", "loop/x", "a\x00b",
		strings.Repeat("n", 255), strings.Repeat("n", 256))
	both := pair{}
	for method, doing := range doings {
		for _, name := range names {
			if strings.Contains("Rename Link", method) {
				both.check(t, method, doing, name, "new")
				both.check(t, method, doing, "d/f", name)
				both.check(t, method, doing, "empty", name)
			} else {
				both.check(t, method, doing, name)
			}
		}
	}
}

// A pair is a tree for the methods and one for package os, which are made anew once they aren't as they were.
type pair struct{ own, like, before string }

func (p *pair) check(t *testing.T, method string, doing doing, name ...string) {
	if p.own == "" {
		p.own, p.like = plain(t), plain(t)
		p.before = seen(t, p.own)
	}
	root, err := OpenRoot(p.own)
	must(t, err)
	defer root.Close()
	var joined []string
	for _, name := range name {
		joined = append(joined, p.like+"/"+name)
	}
	wanted, wantedError := doing.like(joined...)
	got, err := doing.own(root, name...)
	all := method + " " + strings.Join(name, " ")
	if !tells(err, name) {
		t.Errorf("%s: %#v doesn't tell the name", all, err)
	}
	own, like := seen(t, p.own)+timesOf(t, p.own), seen(t, p.like)+timesOf(t, p.like)
	same := errorOf(err) == errorOf(wantedError)
	if err != nil && wantedError != nil && (isOdd(name[0]) || isOdd(name[len(name)-1])) {
		same = true
	}
	if _, does := differs[all]; does == (same && got == wanted && own == like) {
		t.Errorf("%s: %q, %v, %s; by os %q, %v, %s", all, got, err, own, wanted, wantedError, like)
	}
	if own != p.before || like != p.before {
		p.own = ""
	}
}
