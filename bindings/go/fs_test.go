package inroot

import (
	"errors"
	"io"
	"io/fs"
	"net/http"
	"net/http/httptest"
	"os"
	"path/filepath"
	"reflect"
	"strings"
	"testing"
	"testing/fstest"
)

// It has also the methods of fs.ReadLinkFS, which older versions of Go don't have.
var _ interface {
	fs.StatFS
	fs.ReadFileFS
	fs.ReadDirFS
	ReadLink(name string) (string, error)
	Lstat(name string) (fs.FileInfo, error)
} = rootFS{}

func TestFS(t *testing.T) {
	top, root := tree(t)
	box := filepath.Join(top, "box")
	// Older versions of the test read all that is no directory itself.
	for _, link := range []string{"up", "abs", "in"} {
		must(t, os.Remove(filepath.Join(box, link)))
	}
	must(t, os.Symlink("/../a/b/f", filepath.Join(box, "in")))
	must(t, os.MkdirAll(filepath.Join(box, "many/empty"), 0o755))
	for _, name := range []string{"-rf", "a b", "line\nline", "ö"} {
		must(t, os.WriteFile(filepath.Join(box, "many", name), []byte(name), 0o644))
	}
	must(t, fstest.TestFS(root.FS(), "a/b/f", "in", "many/empty", "many/ö"))
	must(t, fstest.TestFS(root.With(Exact).FS(), "a/b/f"))
}

// Each name has the same kind as for a walk of the directory itself, and no link is followed.
func TestWalkDir(t *testing.T) {
	top, root := tree(t)
	kinds := func(fsys fs.FS) (all []string) {
		must(t, fs.WalkDir(fsys, ".", func(path string, entry fs.DirEntry, err error) error {
			must(t, err)
			about, err := entry.Info()
			must(t, err)
			all = append(all, path+" "+entry.Name()+" "+entry.Type().String()+" "+about.Mode().String())
			return nil
		}))
		return all
	}
	own, plain := kinds(root.FS()), kinds(os.DirFS(filepath.Join(top, "box")))
	if !reflect.DeepEqual(own, plain) || len(own) != 7 {
		t.Errorf("%q, and not %q", own, plain)
	}
	// What is opened has the name that its status has.
	for _, name := range []string{".", "a", "a/b/f", "in"} {
		file, err := root.FS().Open(name)
		must(t, err)
		about, err := file.Stat()
		must(t, err)
		must(t, file.Close())
		is(t, about.Name(), err, filepath.Base(name))
		about, err = fs.Stat(root.FS(), name)
		must(t, err)
		is(t, about.Name(), err, filepath.Base(name))
	}
}

func TestFSOfLinks(t *testing.T) {
	_, root := tree(t)
	text, err := fs.ReadFile(root.FS(), "in/f")
	is(t, string(text), err, "inside")
	for _, name := range []string{"up/secret", "abs/secret", "up"} {
		_, err := root.FS().Open(name)
		fails(t, err, fs.ErrNotExist)
		_, err = fs.Stat(root.FS(), name)
		fails(t, err, fs.ErrNotExist)
	}
	link, err := root.FS().(rootFS).ReadLink("up")
	is(t, link, err, "../outside")
	about, err := root.FS().(rootFS).Lstat("up")
	if err != nil || about.Mode().Type() != fs.ModeSymlink {
		t.Errorf("up is %v, %v", about, err)
	}
}

func TestFSErrors(t *testing.T) {
	_, root := tree(t)
	fsys := root.FS().(rootFS)
	for _, name := range []string{"", "/", "/a", "../a", "a/", "a//b", "./a", "a/..", "\xff"} {
		_, err := fsys.Open(name)
		fails(t, err, fs.ErrInvalid)
		_, err = fsys.Stat(name)
		fails(t, err, fs.ErrInvalid)
		_, err = fsys.Lstat(name)
		fails(t, err, fs.ErrInvalid)
		_, err = fsys.ReadFile(name)
		fails(t, err, fs.ErrInvalid)
		_, err = fsys.ReadLink(name)
		fails(t, err, fs.ErrInvalid)
		_, err = fsys.ReadDir(name)
		fails(t, err, fs.ErrInvalid)
	}
	_, err := fsys.ReadDir("a/b/f")
	var told *fs.PathError
	if !errors.As(err, &told) || told.Path != "a/b/f" {
		t.Errorf("%v doesn't tell the name", err)
	}
	file, err := fsys.Open("a")
	must(t, err)
	_, err = file.Read(make([]byte, 1))
	if err == nil {
		t.Error("a directory was read")
	}
	must(t, file.Close())
	if entries, err := file.(fs.ReadDirFile).ReadDir(-1); err == nil || len(entries) != 0 {
		t.Errorf("a closed directory has %v", entries)
	}
}

func TestHTTP(t *testing.T) {
	_, root := tree(t)
	server := httptest.NewServer(http.FileServer(http.FS(root.FS())))
	defer server.Close()
	for path, wanted := range map[string]string{
		"/a/b/f": "inside", "/in/f": "inside", "/abs/secret": "404 page not found\n",
		"/a/": "<pre>\n<a href=\"b/\">b/</a>\n</pre>\n",
	} {
		answer, err := http.Get(server.URL + path)
		must(t, err)
		text, err := io.ReadAll(answer.Body)
		must(t, answer.Body.Close())
		must(t, err)
		// Before the list of a directory newer versions of Go put a head.
		if got := string(text); got != wanted && !(path == "/a/" && strings.HasSuffix(got, ">\n"+wanted)) {
			t.Errorf("%s is %q, and not %q", path, got, wanted)
		}
	}
	asked, err := http.NewRequest("GET", server.URL+"/in/f", nil)
	must(t, err)
	asked.Header.Set("Range", "bytes=2-4")
	answer, err := http.DefaultClient.Do(asked)
	must(t, err)
	text, err := io.ReadAll(answer.Body)
	must(t, answer.Body.Close())
	is(t, string(text), err, "sid")
}
