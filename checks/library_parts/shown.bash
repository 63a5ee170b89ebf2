# shellcheck shell=bash disable=SC2154
# Each program in C, Rust, Go and Python that a document for users shows is cut out, built and run as a reader would: in
# the language's default mode, with what pkg-config says and nothing else. checks/library reads this file.
#
# A block of such a document is a whole program. Where a line `./FILE ARGS` stands below the block, the program is run with
# these arguments. The root that the documents name, /srv/box, is a new one here. In it the program ends well, and prints
# what a file there holds, or nothing. Below a root that isn't there it says so by its status. A man page may show some lines
# of a function that has `root`: these stand in a program that opens it.

# blocks_of DOCUMENT TO: its blocks of code, each a file TO/NUMBER.LANGUAGE, and what is below it TO/NUMBER.below.
blocks_of() {
    case $1 in
    man/*)
        awk -v to="$2" '
            function whole(lines) {
                return "#define _GNU_SOURCE\n" headers "#include <err.h>\n#include <fcntl.h>\n" \
                    "#include <string.h>\n#include <sys/mount.h>\nint main(void)\n{\n" \
                    "int tree = -1, root = open(\"/srv/box\", O_PATH | O_DIRECTORY | O_CLOEXEC);\n" \
                    "if (root < 0)\nerr(1, \"/srv/box\");\n(void)tree;\n" \
                    lines "return 0;\n}\n"
            }
            /^[.]In / { headers = headers "#include <" $2 ">\n" }
            /^[.]Bd -literal/ { text = ""; on = 1; next }
            /^[.]Ed/ && text ~ /#include/ { printf "%s", text >(to "/" ++count ".c") }
            /^[.]Ed/ && text ~ /inroot_[a-z_]*\(/ && text !~ /#include/ { printf "%s", whole(text) >(to "/" ++count ".c") }
            /^[.]Ed/ { on = 0 }
            on { gsub(/\\e/, "\\"); text = text $0 "\n" }' "$1"
        ;;
    *)
        awk -v to="$2" '
            /^```(c|rust|go|python)$/ { on = 1; file = to "/" ++count "." substr($0, 4); printf "" >file; next }
            /^```/ { on = 0; next }
            on { print >file; next }
            count && /^    / { print substr($0, 5) >(to "/" count ".below") }' "$1"
        ;;
    esac
}

# build_shown LANGUAGE SOURCE TO: the program, as a reader builds it. The binding's path is that of this repository.
build_shown() {
    case $1 in
    c) cc -o "$3" "$2" "${flags[@]}" ;;
    rust)
        mkdir -p "$work/shown/rust/src" && cp "$2" "$work/shown/rust/src/main.rs" &&
            printf '[package]\nname = "shown"\nversion = "0.0.0"\nedition = "2021"\n[dependencies]\ninroot = { path = "%s" }\n' \
                "$top/bindings/rust" >"$work/shown/rust/Cargo.toml" &&
            cargo build -q --offline --manifest-path "$work/shown/rust/Cargo.toml" && cp "$CARGO_TARGET_DIR/debug/shown" "$3"
        ;;
    go)
        mkdir -p "$work/shown/go" && cp "$2" "$work/shown/go/main.go" &&
            sed "s|^module .*|module shown|; s|=> .*|=> $top/bindings/go|" examples/runtime/unpack-go/go.mod \
                >"$work/shown/go/go.mod" && env -C "$work/shown/go" go build -o "$3" .
        ;;
    python) printf '#!/bin/sh\nPYTHONPATH=%q exec python3 -B %q "$@"\n' "$top/bindings/python" "$2" >"$3" && chmod +x "$3" ;;
    esac
}

# runs_shown SOURCE NAME: the block is built, runs in the box, and fails below what isn't there.
runs_shown() {
    local source=$1 name=$2 language=${1##*.} built=${1%.*}.run below=${1%.*}.below args=() said
    make_box "$work/shown/box" && mkdir -p "$work/shown/box/etc" "$work/shown/box/var/lib" &&
        echo inside | tee "$work/shown/box/etc/passwd" >"$work/shown/box/etc/conf"
    [ ! -f "$below" ] || read -ra args < <(sed -n "s|^\./[a-z]* ||p" "$below" | head -n 1)
    for at in box none; do
        sed "s|/srv/box|$work/shown/$at|g" "$source" >"$source.$at.$language"
        has "$name is built" build_shown "$language" "$source.$at.$language" "$built"
        said=$("$built" ${args[@]+"${args[@]//\/srv\/box/$work/shown/$at}"} 2>"$work/printed")
        case $at,$? in
        box,0) [ -z "$said" ] || [ "$said" = inside ] ;;
        box,* | none,0) false ;;
        none,*) [ -z "$said" ] && [ -s "$work/printed" ] ;;
        esac
        verdict $? "$name below $at: printed '$said' and '$(cat "$work/printed")'"
    done
    rm -rf "$work/shown/box"
}

# Whether a program takes a call that the C library here is too old for.
is_too_new() {
    grep -q 'move_mount(' "$1" && ! printf '#include <sys/mount.h>\nint main(void) { return move_mount(0, "", 0, "", 0); }\n' |
        cc -x c -o "$work/shown/new" - 2>/dev/null
}

shown=0
for document in README.md bindings/README.md docs/HOST.md man/*.[37]; do
    at=$work/shown/${document//\//-}
    mkdir -p "$at"
    blocks_of "$document" "$at"
    for source in "$at"/*.c "$at"/*.rust "$at"/*.go "$at"/*.python; do
        [ -f "$source" ] || continue
        shown=$((shown + 1))
        case $source in
        *.rust) lacks_rust "the Rust of $document" && continue ;;
        *.go) lacks_go "the Go of $document" && continue ;;
        *.python) lacks python3 "the Python of $document" && continue ;;
        *) is_too_new "$source" && skip "the C of $document" 'the C library has no move_mount(2)' && continue ;;
        esac
        number=${source##*/}
        runs_shown "$source" "$document, program ${number%.*}"
    done
done
[ "$shown" -ge 7 ]
verdict $? "the documents show $shown programs: are they found?"
[ "$(outside)" = "$before" ]
verdict $? "what the documents show changed what is outside: $(diff <(echo "$before") <(outside))"
