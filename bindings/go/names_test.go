package inroot

import (
	"go/ast"
	"go/parser"
	"go/token"
	"io/fs"
	"os"
	"path/filepath"
	"strings"
	"syscall"
	"testing"
)

// outOf leads above any directory: joined to the name of a root, it gives a path of the host.
var outOf = strings.Repeat("../", 64)

// A named is a file, a handle or a root.
type named interface {
	Name() string
	Close() error
}

// givers has a call of each exported function and method that gives one, by a name that leads to root's own a. Files
// of proc(5) aren't below a root, and a Root's name is that of its directory.
var givers = map[string]func(root *Root) (named, error){
	"Root.Open":            func(root *Root) (named, error) { return root.Open(outOf + "a/b/f") },
	"Root.Create":          func(root *Root) (named, error) { return root.Create(outOf + "a/0") },
	"Root.OpenFile":        func(root *Root) (named, error) { return root.OpenFile(outOf+"a/b/f", os.O_RDWR, 0) },
	"Root.OpenRoot":        func(root *Root) (named, error) { return root.OpenRoot(outOf + "a") },
	"Root.Resolve":         func(root *Root) (named, error) { return root.Resolve(outOf + "a/b/f") },
	"Root.ResolveNoFollow": func(root *Root) (named, error) { return root.ResolveNoFollow(outOf + "a/b/f") },
	"Root.MkdirAllHandle":  func(root *Root) (named, error) { return root.MkdirAllHandle(outOf+"a/1", 0o755) },
	"Root.MkfileAll":       func(root *Root) (named, error) { return root.MkfileAll(outOf+"a/3", 0o600, 0o755) },
	"Root.MkdirHandle":     func(root *Root) (named, error) { return root.MkdirHandle(outOf+"a/6", 0o755) },
	"Root.SymlinkHandle":   func(root *Root) (named, error) { return root.SymlinkHandle("/etc/passwd", outOf+"a/8") },
	"Root.LinkHandle":      func(root *Root) (named, error) { return root.LinkHandle("a/b/f", outOf+"a/9") },
	"Root.CreateUnnamed":   func(root *Root) (named, error) { return root.CreateUnnamed(outOf+"a", 0o600) },
	"Root.FS": func(root *Root) (named, error) {
		file, err := root.FS().Open("a/b/f")
		return file.(named), err
	},
	"Root.ResolveParent": func(root *Root) (named, error) {
		handle, _, err := root.ResolveParent(outOf + "a/b/f")
		return handle, err
	},
	"Root.MknodHandle": func(root *Root) (named, error) {
		return root.MknodHandle(outOf+"a/7", syscall.S_IFIFO|0o600, 0)
	},
	"Handle.Reopen": func(root *Root) (named, error) {
		found, err := root.Resolve(outOf + "a/b/f")
		if err != nil {
			return nil, err
		}
		defer found.Close()
		return found.Reopen(os.O_RDONLY)
	},
}

// typeName gives the name of a type that may be a pointer, and may be another package's.
func typeName(of ast.Expr) string {
	switch of := of.(type) {
	case *ast.StarExpr:
		return typeName(of.X)
	case *ast.SelectorExpr:
		return of.Sel.Name
	case *ast.Ident:
		return of.Name
	}
	return ""
}

// givesFile says whether a function is exported and has a file, a handle, a root or an fs.FS among its results, and
// by which name givers has it.
func givesFile(function *ast.FuncDecl) (string, bool) {
	name := function.Name.Name
	if function.Recv != nil {
		of := typeName(function.Recv.List[0].Type)
		if !ast.IsExported(of) {
			return "", false
		}
		name = of + "." + name
	}
	if !function.Name.IsExported() || function.Type.Results == nil {
		return "", false
	}
	for _, result := range function.Type.Results.List {
		switch typeName(result.Type) {
		case "File", "Handle", "Root", "FS":
			return name, true
		}
	}
	return "", false
}

func TestEachGiverOfAFileHasACall(t *testing.T) {
	sources, err := filepath.Glob("*.go")
	must(t, err)
	found := 0
	for _, source := range sources {
		parsed, err := parser.ParseFile(token.NewFileSet(), source, nil, 0)
		must(t, err)
		for _, declared := range parsed.Decls {
			function, is := declared.(*ast.FuncDecl)
			if !is {
				continue
			}
			name, gives := givesFile(function)
			switch name {
			case "ProcOpen", "OpenRoot", "OpenInRoot", "NewRoot", "Root.With":
				continue
			}
			if gives && givers[name] == nil {
				t.Errorf("%s gives a file, and no call of it is tried", name)
			}
			if gives {
				found++
			}
		}
	}
	if found != len(givers) {
		t.Errorf("%d functions give a file, and %d are tried", found, len(givers))
	}
}

// A file's name is below that of its root, by whatever name the root was opened, and empty where the root has none.
func TestNamesAreBelowTheRoots(t *testing.T) {
	for giver, call := range givers {
		for _, name := range []string{"absolute", ".", "../box", ""} {
			checkName(t, giver, name, call)
		}
	}
}

func checkName(t *testing.T, giver, name string, call func(root *Root) (named, error)) {
	_, root := tree(t)
	if name == "absolute" {
		name = root.Name()
	}
	before, err := os.Getwd()
	must(t, err)
	must(t, os.Chdir(root.Name()))
	defer os.Chdir(before)
	fd, err := syscall.Dup(int(root.dir.Fd()))
	must(t, err)
	called := NewRoot(os.NewFile(uintptr(fd), name))
	defer called.Close()
	file, err := call(called)
	must(t, err)
	defer file.Close()
	if name == "" {
		if file.Name() != "" {
			t.Errorf("%s below a root without a name: %q", giver, file.Name())
		}
		return
	}
	rest, err := filepath.Rel(name, file.Name())
	if err != nil || rest == "." || rest == ".." || strings.HasPrefix(rest, "../") {
		t.Errorf("%s below %q: %q", giver, name, file.Name())
	}
}

func TestNameOfAPathThatLeadsOut(t *testing.T) {
	top, root := tree(t)
	must(t, root.MkdirAll("etc", 0o755))
	file, err := root.Create("../../../../etc/passwd")
	must(t, err)
	defer file.Close()
	is(t, file.Name(), nil, filepath.Join(top, "box/etc/passwd"))
	same, err := OpenInRoot(filepath.Join(top, "box"), "../../../../etc/passwd")
	is(t, textOf(t, same, err), nil, "")
	is(t, same.Name(), nil, file.Name())
	_, err = OpenInRoot(top, "box/up/outside/none")
	fails(t, err, fs.ErrNotExist)
}

// Names that a text of C, a line or a command could take otherwise.
func TestHostileNames(t *testing.T) {
	top, root := tree(t)
	names := []string{
		" ", "a\nb", "-rf", "...", "..x", "a\\b", "$(x)", "*", "\xff\xfe", "\u202e", "%s%n", "'\"",
		strings.Repeat("n", 255),
	}
	for _, name := range names {
		must(t, root.Symlink(name, "in/"+name))
		text, err := root.Readlink("in/" + name)
		is(t, text, err, name)
		must(t, root.Remove("in/"+name))
		must(t, root.MkdirAll("in/"+name+"/"+name, 0o755))
		must(t, root.WriteFile("in/"+name+"/f", []byte(name), 0o644))
		must(t, root.Rename("in/"+name+"/f", "in/"+name+"/"+name+"/g"))
		inside, err := os.ReadFile(filepath.Join(top, "box/a/b", name, name, "g"))
		is(t, string(inside), err, name)
		about, err := root.Stat("in/" + name)
		must(t, err)
		is(t, about.Name(), err, name)
		entries, err := root.FS().(rootFS).ReadDir("a/b")
		if err != nil || len(entries) != 2 {
			t.Errorf("%q: %v, %v", name, entries, err)
		}
		must(t, root.RemoveAll("in/"+name))
	}
}

func TestRefusedNames(t *testing.T) {
	top, root := tree(t)
	before := seen(t, top)
	for name, wanted := range map[string]error{
		"": fs.ErrNotExist, "a\x00b": fs.ErrInvalid, strings.Repeat("n", 256): syscall.ENAMETOOLONG,
		strings.Repeat("a/", 2048): syscall.ENAMETOOLONG, ".": fs.ErrInvalid, "..": fs.ErrInvalid, "/": fs.ErrInvalid,
		"a/..": fs.ErrInvalid,
	} {
		fails(t, root.Mkdir(name, 0o755), wanted)
		fails(t, root.Remove(name), wanted)
		fails(t, root.Rename(name, "x"), wanted)
		fails(t, root.Rename("a", name), wanted)
		fails(t, root.Symlink("x", name), wanted)
		fails(t, root.Mknod(name, syscall.S_IFIFO|0o600, 0), wanted)
		fails(t, root.Link("in/f", name), wanted)
		_, err := root.Readlink(name)
		fails(t, err, wanted)
	}
	fails(t, root.Symlink("", "x"), fs.ErrNotExist)
	fails(t, root.Symlink("a\x00b", "x"), fs.ErrInvalid)
	fails(t, root.Symlink(strings.Repeat("n", 4096), "x"), syscall.ENAMETOOLONG)
	if now := seen(t, top); now != before {
		t.Errorf("refused names have made %s", now)
	}
}
