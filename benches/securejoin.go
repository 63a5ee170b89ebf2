// Opens every path of a directory below it by SecureJoin and open(2), and tells how long a path takes: of the same paths as
// benches/paths.c, close(2) included, and the least of ROUNDS for each.
//
//	securejoin ROOT ROUNDS [KIND]     KIND is plain, links or by: those paths alone, as for strace(1) -c -f
//
// ROUNDS is a number, or `-`: then each line of standard input asks for one round and is answered by one
// (benches/turns).
//
// It needs filepath-securejoin and golang.org/x/sys, as Debian's golang-github-cyphar-filepath-securejoin-dev and
// golang-golang-x-sys-dev have them:
//
//	GO111MODULE=off GOPATH=/usr/share/gocode go build -o securejoin benches/securejoin.go
//
// SecureJoin gives a text, and who walks it again may be led elsewhere: this is what it costs, and not what it promises.
package main

import (
	"bufio"
	"fmt"
	"io/fs"
	"math"
	"os"
	"path/filepath"
	"runtime"
	"strconv"
	"strings"
	"time"

	securejoin "github.com/cyphar/filepath-securejoin"
	"golang.org/x/sys/unix"
)

type timed struct {
	path string
	best time.Duration
}

var kinds = []string{"plain", "links", "by a link"}

// Whether a path leads to something below the root. The kernel refuses one with `..` by EAGAIN while others rename.
func leads(root int, path string) bool {
	how := &unix.OpenHow{Flags: unix.O_PATH | unix.O_CLOEXEC, Resolve: unix.RESOLVE_IN_ROOT}
	fd, err := unix.Openat2(root, path, how)
	for err == unix.EAGAIN {
		fd, err = unix.Openat2(root, path, how)
	}
	if err != nil {
		return false
	}
	unix.Close(fd)
	return true
}

// What is below `usr/bin` is found by `bin` too, where that is a link there.
func byLinks(root, path string) []timed {
	var found []timed
	for _, name := range []string{"bin", "lib", "lib64", "sbin"} {
		about, err := os.Lstat(filepath.Join(root, name))
		if err == nil && about.Mode()&fs.ModeSymlink != 0 && strings.HasPrefix(path, "usr/"+name+"/") {
			found = append(found, timed{path: strings.TrimPrefix(path, "usr/"), best: time.Hour})
		}
	}
	return found
}

func collect(root string) ([][]timed, error) {
	paths := make([][]timed, len(kinds))
	top, err := unix.Open(root, unix.O_PATH|unix.O_DIRECTORY|unix.O_CLOEXEC, 0)
	if err != nil {
		return nil, err
	}
	defer unix.Close(top)
	err = filepath.WalkDir(root, func(whole string, entry fs.DirEntry, err error) error {
		path, _ := filepath.Rel(root, whole)
		if err != nil || path == "." {
			return err
		}
		if entry.Type()&fs.ModeSymlink == 0 {
			paths[0] = append(paths[0], timed{path: path, best: time.Hour})
			paths[2] = append(paths[2], byLinks(root, path)...)
		} else if leads(top, path) {
			paths[1] = append(paths[1], timed{path: path, best: time.Hour})
		}
		return nil
	})
	return paths, err
}

func open(root, path string) bool {
	whole, err := securejoin.SecureJoin(root, path)
	if err != nil {
		return false
	}
	fd, err := unix.Open(whole, unix.O_PATH|unix.O_CLOEXEC, 0)
	if err != nil {
		return false
	}
	unix.Close(fd)
	return true
}

// Opens each path once, and gives how many could not be opened.
func round(root string, paths []timed) int {
	failed := 0
	for at := range paths {
		from := time.Now()
		opened := open(root, paths[at].path)
		if took := time.Since(from); opened && took < paths[at].best {
			paths[at].best = took
		}
		if !opened {
			failed++
		}
	}
	return failed
}

// What it takes to read the clock.
func clockCost() time.Duration {
	least := time.Hour
	for turn := 0; turn < 10000; turn++ {
		from := time.Now()
		if took := time.Since(from); took < least {
			least = took
		}
	}
	return least
}

func main() {
	runtime.LockOSThread()
	if len(os.Args) < 3 {
		fmt.Fprintln(os.Stderr, "usage: securejoin ROOT ROUNDS [KIND]")
		os.Exit(2)
	}
	root, err := filepath.EvalSymlinks(os.Args[1])
	rounds, wrong := math.MaxInt, error(nil)
	byTurns := os.Args[2] == "-"
	if !byTurns {
		rounds, wrong = strconv.Atoi(os.Args[2])
	}
	if err != nil || wrong != nil {
		fmt.Fprintln(os.Stderr, "securejoin:", err, wrong)
		os.Exit(2)
	}
	paths, err := collect(root)
	if err != nil {
		fmt.Fprintln(os.Stderr, "securejoin:", err)
		os.Exit(1)
	}
	wanted := func(kind int) bool { return len(os.Args) <= 3 || strings.HasPrefix(kinds[kind], os.Args[3]) }
	var failed [3]int
	turns := bufio.NewReader(os.Stdin)
	for turn := 0; turn < rounds; turn++ {
		if byTurns {
			if _, err := turns.ReadString('\n'); err != nil {
				break
			}
		}
		for kind := range kinds {
			if wanted(kind) {
				failed[kind] = round(root, paths[kind])
			}
		}
		if byTurns {
			fmt.Println()
		}
	}
	clock := clockCost()
	for kind, name := range kinds {
		if !wanted(kind) {
			continue
		}
		sum := time.Duration(0)
		for _, one := range paths[kind] {
			sum += one.best - clock
		}
		mean := float64(sum) / float64(len(paths[kind])) / 1000
		fmt.Printf("securejoin %-9s %5d paths, %d failed  %6.2f us\n", name, len(paths[kind]), failed[kind], mean)
	}
}
