//go:build go1.24

package inroot

import (
	"errors"
	"fmt"
	"io"
	"io/fs"
	"os"
	"path/filepath"
	"reflect"
	"strings"
	"syscall"
	"testing"
)

// here gives a type of package os as it is called in this package, which has a File of its own.
func here(like reflect.Type) string {
	return strings.NewReplacer("*os.Root", "*inroot.Root", "*os.File", "*inroot.File").Replace(like.String())
}

// Each method of os.Root is one of Root, with the same types. Go 1.25 has more of them than 1.24.
func TestMethodsOfOSRoot(t *testing.T) {
	own, like := reflect.TypeOf(&Root{}), reflect.TypeOf(&os.Root{})
	for i := 0; i < like.NumMethod(); i++ {
		wanted := here(like.Method(i).Type)
		method, has := own.MethodByName(like.Method(i).Name)
		if !has || method.Type.String() != wanted {
			t.Errorf("%s is %v, and not %s", like.Method(i).Name, method.Type, wanted)
		}
	}
	if reflect.TypeOf(OpenInRoot).String() != here(reflect.TypeOf(os.OpenInRoot)) {
		t.Errorf("OpenInRoot is %T, and not %T", OpenInRoot, os.OpenInRoot)
	}
	if like.NumMethod() < 11 {
		t.Errorf("os.Root has only %d methods", like.NumMethod())
	}
}

// A call has the name of a method, and what it takes behind the name of a file, or before it the text of a link.
type call struct {
	method string
	before string
	behind []interface{}
}

var calls = []call{
	{"Open", "", nil}, {"Create", "", nil}, {"OpenRoot", "", nil}, {"Stat", "", nil}, {"Lstat", "", nil},
	{"OpenFile", "", []interface{}{os.O_RDWR, fs.FileMode(0)}},
	{"OpenFile", "", []interface{}{os.O_RDWR | os.O_CREATE | os.O_EXCL, fs.FileMode(0o640)}},
	{"OpenFile", "", []interface{}{os.O_WRONLY | os.O_CREATE | os.O_APPEND, fs.FileMode(0o640)}},
	{"Mkdir", "", []interface{}{fs.FileMode(0o750)}}, {"MkdirAll", "", []interface{}{fs.FileMode(0o750)}},
	{"Remove", "", nil}, {"RemoveAll", "", nil}, {"Readlink", "", nil}, {"ReadFile", "", nil},
	{"WriteFile", "", []interface{}{[]byte("new"), fs.FileMode(0o604)}}, {"Symlink", "some/text", nil},
	{"Rename", "d/f", nil}, {"Rename", "empty", nil}, {"Rename", "link", nil}, {"Link", "d/f", nil},
	{"Chmod", "", []interface{}{fs.FileMode(0o711)}}, {"Chown", "", []interface{}{os.Getuid(), -1}},
	{"Lchown", "", []interface{}{-1, os.Getgid()}}, {"Chtimes", "", []interface{}{early, late}},
}

// of makes the call on a root of either kind, and gives what it gave as a text.
func (c call) of(root interface{}, name string) (string, error) {
	given := []reflect.Value{reflect.ValueOf(name)}
	if c.before != "" {
		given = []reflect.Value{reflect.ValueOf(c.before), given[0]}
	}
	for _, value := range c.behind {
		given = append(given, reflect.ValueOf(value))
	}
	results := reflect.ValueOf(root).MethodByName(c.method).Call(given)
	err, _ := results[len(results)-1].Interface().(error)
	if err != nil || len(results) == 1 {
		return "", err
	}
	switch of := results[0].Interface().(type) {
	case io.ReadWriteCloser:
		defer of.Close()
		text, unread := io.ReadAll(of)
		_, unwritten := of.Write([]byte("written"))
		return fmt.Sprintf("%q %v %v", text, errorOf(unread), errorOf(unwritten)), nil
	case fs.FileInfo:
		return fmt.Sprint(of.Name(), of.Size(), of.Mode()), nil
	case io.Closer:
		defer of.Close()
		return call{method: "Stat"}.of(of, ".")
	default:
		return fmt.Sprintf("%q", of), nil
	}
}

// areAlike says whether both calls gave no error or the same one. Of a path that leads out, os.Root says so in words.
// Of a path without a last name both give an error, and the library EINVAL or ENOENT. Where something else than a
// directory is, os.Root.MkdirAll gives EEXIST, and os.MkdirAll ENOTDIR as the library does.
func areAlike(method, name string, own, like error) bool {
	if own == nil || like == nil || isOdd(name) || method == "MkdirAll" {
		return (own == nil) == (like == nil)
	}
	for _, err := range []*error{&own, &like} {
		for errors.Unwrap(*err) != nil {
			*err = errors.Unwrap(*err)
		}
	}
	return own.Error() == like.Error() || own == syscall.EXDEV && like.Error() == "path escapes from parent"
}

// Under Beneath each method gives what that of os.Root gives, refuses what it refuses, and leaves the same behind.
func TestLikeOSRoot(t *testing.T) {
	old := syscall.Umask(0o022)
	defer syscall.Umask(old)
	names := append(strings.Fields(". d d/f d/e dir d/above link dangling empty new none/x d/f/x loop loop/x dir/f"),
		"d/../d/f", "./d/f", "d//f", "", "a\x00b", strings.Repeat("n", 256),
		"..", "../x", "d/../..", "/", "/d/f", "up", "up/secret", "abs", "abs/secret", "out")
	for _, call := range calls {
		if !reflect.ValueOf(&os.Root{}).MethodByName(call.method).IsValid() {
			continue
		}
		for _, name := range names {
			// To remove all of no name is no error of package os, nor here.
			if call.method != "RemoveAll" || name != "" {
				call.check(t, name)
			}
		}
	}
}

// likeRoot makes a tree with links that lead out, too.
func likeRoot(t *testing.T) string {
	top := plain(t)
	for name, text := range map[string]string{"up": "..", "abs": "/", "out": "../none", "d/up": "../../x"} {
		must(t, os.Symlink(text, filepath.Join(top, name)))
	}
	return top
}

func (c call) check(t *testing.T, name string) {
	own, like := likeRoot(t), likeRoot(t)
	root, err := OpenRoot(own)
	must(t, err)
	defer root.Close()
	other, err := os.OpenRoot(like)
	must(t, err)
	defer other.Close()
	wanted, wantedError := c.of(other, name)
	got, err := c.of(root.With(Beneath), name)
	same := areAlike(c.method, name, err, wantedError) && got == wanted
	if !same || seen(t, own)+timesOf(t, own) != seen(t, like)+timesOf(t, like) {
		t.Errorf("%s %s %s: %q, %v; os.Root: %q, %v", c.method, c.before, name, got, err, wanted, wantedError)
	}
}
