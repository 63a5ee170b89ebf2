# shellcheck shell=bash disable=SC2154
# The library as distributions build it: with options of their own from the environment, link-time optimization, hardening,
# and for machines that no archive fits. checks/library reads this file.

# built_by NAME VARIABLE=VALUE..: what make builds with such an environment gives all calls, and the tool in it runs.
built_by() {
    local name=$1 at=$work/by-$1
    shift
    has "$name: make" env "$@" make -s -C host OUT="$at" LIBRARY="$library" all
    [ "$("$at/inroot-fs" "$box" cat in/f 2>&1)" = inside ] &&
        [ "$(nm -D --defined-only "$at/$soname" | awk '$2 == "T"' | wc -l)" -eq "$(wc -l <<<"$wanted")" ]
    verdict $? "$name: what is built gives other calls, or the tool does not run"
}

if compiles cc -flto=auto -ffat-lto-objects; then
    built_by lto CFLAGS='-O1 -flto=auto' LDFLAGS=-flto=auto
    built_by lto-fat CFLAGS='-O1 -flto=auto -ffat-lto-objects' LDFLAGS=-flto=auto
    has 'a program with LTO over the archive' cc -O1 -flto=auto -std=c11 -D_GNU_SOURCE -Ihost -o "$work/used" "$work/use.c" \
        "$work/by-lto/libinroot.a" -pthread
    make_box "$work/lto-box"
    has 'a program with LTO runs' "$work/used" "$work/lto-box"
else
    skip 'link-time optimization' 'the compiler cc has none'
fi
if ! lacks clang 'thin link-time optimization'; then
    if compiles clang -flto=thin -fuse-ld=lld; then
        built_by lto-thin CC=clang CFLAGS='-O1 -flto=thin' LDFLAGS=-fuse-ld=lld
    else
        skip 'thin link-time optimization' 'clang has no linker for it here'
    fi
fi

built_by hidden CFLAGS='-O1 -fvisibility=hidden'

# Options of the environment reach the library and the tool: a guard on the stack and calls that look at sizes are asked for.
if compiles cc -fstack-protector-strong -O1 -D_FORTIFY_SOURCE=2; then
    built_by hardened CFLAGS='-O1 -fstack-protector-strong' CPPFLAGS=-D_FORTIFY_SOURCE=2 LDFLAGS=-Wl,--no-undefined
    for name in "$soname" inroot-fs; do
        asked=$(nm -D --undefined-only "$work/by-hardened/$name")
        grep -q __stack_chk_fail <<<"$asked" && grep -q '_chk\b' <<<"$asked"
        verdict $? "options of the environment do not reach $name: $asked"
    done
fi
# notes FILE: what it is marked with.
notes() { readelf -nW "$1" | grep -E 'x86 feature|Build ID'; }
[[ $(notes "$prefix/lib/$soname") =~ 'Build ID: '[0-9a-f]{40} ]]
verdict $? "the shared library has no build id: $(notes "$prefix/lib/$soname")"
# The proved calls keep to call and return; they have no marks of where jumps lead.
if compiles cc -fcf-protection && [[ $(cc -dumpmachine) = x86_64-* ]]; then
    has 'an archive for a shadow stack' host/build "$library" "$work/marked.a" -O0 -fcf-protection
    grep -q 'SHSTK' <<<"$(notes "$work/marked.a")" && ! grep -q IBT <<<"$(notes "$work/marked.a")"
    verdict $? "an archive for a shadow stack: $(notes "$work/marked.a")"
    has 'an archive for none' host/build "$library" "$work/plain.a" -O0 -fcf-protection=none
    [ -z "$(notes "$work/plain.a")" ]
    verdict $? "an archive for no shadow stack: $(notes "$work/plain.a")"
fi
has 'a compiler with an option' make_host OUT="$work/by-option" LIBRARY="$library" CC='cc -fno-common' CFLAGS=-O0 "$work/by-option/libinroot.a"

# Of a path with a blank in it, no rule takes the first part for a path.
mkdir "$work/first" && echo kept >"$work/first/a"
for target in all install uninstall clean; do
    for place in PREFIX DESTDIR LIBDIR OUT; do
        ! make_host LIBRARY="$library" "$place=$work/first/a b" "$target" >"$work/printed" 2>&1 &&
            grep -qF "host: $place has a blank in it: '$work/first/a b'" "$work/printed" &&
            [ "$(cat "$work/first/a")" = kept ] && [ "$(ls "$work/first")" = a ] && [ ! -e host/b ]
        verdict $? "make $target with a blank in $place: $(cat "$work/printed"), and there is: $(ls "$work/first")"
    done
done

# For a machine that no archive fits nothing is built, and a line says so. One that names itself so is enough.
# refused_for MACHINE
refused_for() {
    printf '#!/bin/sh\necho "%s"\n' "$1" >"$work/compiler" && chmod +x "$work/compiler"
    ! make_host OUT="$work/refused" CC="$work/compiler" >"$work/printed" 2>&1 && [ ! -e "$work/refused/libinroot.a" ] &&
        grep -qF 'There are archives for 64-bit Linux on x86-64 and arm64 alone' "$work/printed"
    verdict $? "make for the machine '$1': $(cat "$work/printed")"
}
for name in riscv64-linux-gnu i686-linux-gnu arm-linux-gnueabihf aarch64_be-linux-gnu x86_64-linux-gnux32 \
    aarch64-linux-gnu_ilp32 x86_64-unknown-freebsd14 aarch64-apple-darwin23 ''; do
    refused_for "$name"
done

# ---- what is installed where

# Without the program its pages and completions are left out. PREFIX, DESTDIR and INSTALL are taken from the environment.
printf '#!/bin/sh\necho "$@" >>"%s"\nexec install "$@"\n' "$work/installed" >"$work/installer" && chmod +x "$work/installer"
has 'make install from the environment' env PREFIX=/usr DESTDIR="$work/without" INSTALL="$work/installer" \
    make -s -C host OUT="$work/out" LIBRARY="$library" PROGRAM="$work/none" install
[ "$(diff <(files_below "$work/without/usr") <(files_below "$prefix") | sed -n 's/^[<>] //p' | LC_ALL=C sort | paste -sd ' ')" = \
    './bin/inroot ./share/bash-completion/completions/inroot ./share/fish/vendor_completions.d/inroot.fish ./share/man/man1/inroot.1 ./share/man/man5/inroot-script.5 ./share/zsh/site-functions/_inroot' ]
verdict $? "without the program: $(diff <(files_below "$work/without/usr") <(files_below "$prefix"))"
grep -q 'lib/libinroot.a$' "$work/installed"
verdict $? "INSTALL of the environment is not run: $(head -n 3 "$work/installed")"

# ldconfig is run where the loader looks into the directory, and never with DESTDIR.
mkdir "$work/tools" "$work/in" "$work/not-in"
cat >"$work/tools/ldconfig" <<END
#!/bin/sh
if [ \$# -eq 0 ]; then echo run >>'$work/cached'; else echo '$work/in: (from /etc/ld.so.conf:1)'; echo '	libz.so.1 -> libz.so.1.2'; fi
END
chmod +x "$work/tools/ldconfig"
# cached DIRECTORY: how often ldconfig was run for it, and what is printed.
cached() {
    rm -f "$work/cached"
    PATH=$work/tools:$PATH host/loader "$1" 2>&1
    [ ! -e "$work/cached" ] || wc -l <"$work/cached"
}
[ "$(cached "$work/in")" = 1 ] && [[ $(cached "$work/not-in") = *"does not look into $work/not-in"* ]]
verdict $? "the loader: $(cached "$work/in"), $(cached "$work/not-in")"
PATH=$work/tools:$PATH has 'make install with DESTDIR and a loader' make_host LIBRARY="$library" LIBDIR="$work/in" \
    DESTDIR="$work/without" install
[ ! -e "$work/cached" ]
verdict $? 'make install with DESTDIR runs ldconfig'

# The library runs on each processor of x86-64, also on one of the first.
if [[ $(cc -dumpmachine) = x86_64-* ]] && ! lacks qemu-x86_64 'the library on a processor of the first x86-64'; then
    has 'inroot-fs on a processor of the first x86-64' qemu-x86_64 -cpu qemu64,-sse3,-cx16 "$prefix/bin/inroot-fs" "$box" cat in/f
fi

# The targets at the top call what is there.
for name in all check quick install bench dist clean; do
    has "make $name at the top" make -n "$name"
done
