# shellcheck shell=bash disable=SC2154
# The tests of the bindings, and programs over them. checks/library reads this file.

# Rust and Go make each call of inroot.h, but for one in whose place they open, and call fstat(2).
for name in $(sed -n 's/^[a-z][a-z_ ]*[ *]\(inroot_[a-z_]*\)(.*/\1/p' host/inroot.h); do
    case $name in
    inroot_stat) ! grep -qE "(ffi::|C\.)$name\(" bindings/rust/src/*.rs bindings/go/*.go ;;
    *) grep -qF "ffi::$name(" bindings/rust/src/*.rs && grep -qF "C.$name(" bindings/go/*.go ;;
    esac
    verdict $? "a binding makes no call $name, or makes one that this check leaves out"
done

# What each binding takes at least stands in its compiler's own file, and README says the same.
least_rust=$(sed -n 's/^rust-version = "\(.*\)"$/\1/p' bindings/rust/Cargo.toml)
least_go=$(sed -n 's/^go //p' bindings/go/go.mod)
for least in "Rust $least_rust" "Go $least_go"; do
    grep -q "for $least (.*) or later" bindings/README.md
    verdict $? "bindings/README.md doesn't say that a binding takes $least or later"
done

# is_older LANGUAGE LEAST VERSION WHAT: whether the compiler here is older than the binding takes. Then WHAT is skipped.
is_older() {
    [ "$(printf '%s\n' "$2" "$3" | sort -V | head -n 1)" != "$2" ] && skip "$4" "it takes $1 $2 or later, and here is $3"
}

# lacks_rust WHAT, lacks_go WHAT: whether there is no compiler here that the binding takes. Then WHAT is skipped.
lacks_rust() {
    lacks cargo "$1" || is_older Rust "$least_rust" "$(rustc --version | cut -d ' ' -f 2)" "$1"
}
lacks_go() {
    lacks go "$1" || is_older Go "$least_go" "$(go version | sed 's/.* go\([0-9.]*\).*/\1/')" "$1"
}

if ! lacks_rust bindings/rust; then
    # Nobody debugs what is built here, nor builds it a second time after a change.
    export CARGO_TARGET_DIR=$work/target CARGO_INCREMENTAL=0 CARGO_PROFILE_DEV_DEBUG=0 CARGO_PROFILE_TEST_DEBUG=0
    lacks rustfmt 'the form of bindings/rust' ||
        has 'rustfmt' rustfmt --check --edition 2021 --config-path bindings/rust bindings/rust/src/lib.rs \
            bindings/rust/tests/*.rs bindings/rust/build.rs
    has 'the tests of bindings/rust' cargo test -q --offline --locked --manifest-path bindings/rust/Cargo.toml
    mkdir -p "$work/rust/src"
    cat >"$work/rust/Cargo.toml" <<END
[package]
name = "used"
version = "0.0.0"
edition = "2021"
[dependencies]
inroot = { path = "$top/bindings/rust" }
END
    cat >"$work/rust/src/main.rs" <<'END'
fn main() {
    let root = inroot::Root::open_ambient_dir(std::env::args_os().nth(1).unwrap()).unwrap();
    assert_eq!((root.read_to_string("in/f").unwrap().as_str(), root.exists("abs/secret")), ("inside\n", false));
}
END
    for kind in '' 1; do
        [ -z "$kind" ] || export INROOT_STATIC=$kind
        has "a Rust program, static: '$kind'" cargo build -q --offline --manifest-path "$work/rust/Cargo.toml"
        cp "$CARGO_TARGET_DIR/debug/used" "$work/used"
        has "a Rust program runs, static: '$kind'" "$work/used" "$box"
        [ "$(is_shared; echo $?)" -eq "${kind:-0}" ]
        verdict $? "a Rust program has the wrong library, static: '$kind'"
    done
    unset INROOT_STATIC
    # A library that is older than the binding is refused as that is built.
    mkdir "$work/older" && sed 's/^Version: .*/Version: 0.0.9/' "$prefix/lib/pkgconfig/inroot.pc" >"$work/older/inroot.pc"
    ! PKG_CONFIG_PATH=$work/older cargo build -q --offline --manifest-path "$work/rust/Cargo.toml" >"$work/printed" 2>&1 &&
        grep -qF "There is no inroot >= $version" "$work/printed" && grep -qF 0.0.9 "$work/printed"
    verdict $? "Rust over an older library: $(cat "$work/printed")"
    # Its documentation is built where there is no library, and has no link that leads nowhere.
    has 'the documentation of bindings/rust' env DOCS_RS=1 PKG_CONFIG=false RUSTDOCFLAGS='-D warnings' \
        cargo doc -q --offline --locked --no-deps --manifest-path bindings/rust/Cargo.toml
    # What cargo packs of the crate has the licence and the readme.
    cmp -s LICENSE bindings/rust/LICENSE &&
        cargo package -q --list --offline --allow-dirty --manifest-path bindings/rust/Cargo.toml >"$work/printed" 2>&1 &&
        grep -qx LICENSE "$work/printed" && grep -qx README.md "$work/printed"
    verdict $? "what cargo packs of bindings/rust: $(cat "$work/printed")"
fi
# Python has its own name of the library; the flags are compared by checks/repository.
grep -qx "_NAME = \"$soname\"" bindings/python/inroot.py
verdict $? "bindings/python/inroot.py loads another library than $soname"
if ! lacks python3 bindings/python; then
    # A run without a test is none that succeeds.
    has 'the tests of bindings/python' env -C bindings/python python3 -B -m unittest
    grep -q '^Ran [1-9][0-9]* tests' "$work/printed"
    verdict $? "bindings/python has no tests: $(tail -n 3 "$work/printed")"
    [ "$(env -C bindings/python -u LD_LIBRARY_PATH INROOT_LIBRARY_PATH="$prefix/lib/$soname" \
        python3 -Bc 'import inroot; print(inroot.version())')" = "$version" ]
    verdict $? 'Python over the library that INROOT_LIBRARY_PATH names'
fi
has_go=
if ! lacks_go 'bindings/go and the example in Go'; then
    export GOFLAGS=-mod=readonly GOWORK=off GOPROXY=off GOTOOLCHAIN=local CGO_ENABLED=1
    # Of its own: the cache keeps what pkg-config said, and doesn't see where the library went.
    export GOCACHE=$work/gocache
    [ -z "$(gofmt -l bindings/go examples)" ]
    verdict $? "gofmt -l: $(gofmt -l bindings/go examples)"
    has 'go vet of bindings/go' env -C bindings/go go vet ./...
    # The detector of races sees what calls do beside Close.
    race=-race
    mkdir "$work/race" && printf 'package main\n\nfunc main() {}\n' >"$work/race/main.go"
    if ! go build -race -o "$work/race/main" "$work/race/main.go" 2>/dev/null || ! "$work/race/main"; then
        race=
        skip 'the detector of races in the tests of bindings/go' 'this Go has none'
    fi
    has 'the tests of bindings/go' env -C bindings/go go test $race -count=1 ./...
    has 'the tests of bindings/go, over the archive' env -C bindings/go go test -tags inroot_static -count=1 ./...
    has 'a Go program' env -C examples/runtime/unpack-go go build -o "$work/unpack-go" . && has_go=yes
    cp "$work/unpack-go" "$work/used" && has 'a Go program takes the shared library' is_shared
    has 'a Go program, over the archive' env -C examples/runtime/unpack-go \
        go build -tags inroot_static -o "$work/unpack-go-archive" .
    cp "$work/unpack-go-archive" "$work/used" && ! is_shared
    verdict $? 'a Go program that is built with inroot_static takes the shared library'
    has "the tests of examples/clients/securejoin" env -C examples/clients/securejoin go test -count=1 ./...
    if compiles cc -static; then
        has 'a Go program, static' env -C examples/runtime/unpack-go \
            go build -ldflags '-linkmode external -extldflags -static' -o "$work/unpack-go-static" .
        cp "$work/unpack-go-static" "$work/used" && ! is_shared
        verdict $? 'a static Go program takes the shared library'
    fi
fi
