# shellcheck shell=bash disable=SC2154
# The packages of packaging/debian: built, looked at, installed below a root of their own, used, and removed.
# checks/library reads this file.

shared_name=libinroot${soname#libinroot.so.}
packed_names="golang-gimowheta-inroot-dev inroot libinroot-dev $shared_name librust-inroot-dev python3-inroot"
packages=$work/packages
package_root=$work/package-root

packages_build() {
    local name
    mkdir -p "$packages/inroot"
    cp -R host man completions dist bindings packaging docs examples VERSION LICENSE README.md CHANGELOG.md "$packages/inroot"
    cp -R packaging/debian "$packages/inroot/debian"
    [ "$(sed -n '1s/^inroot (\(.*\)) .*/\1/p' packaging/debian/changelog)" = "$version" ]
    verdict $? "packaging/debian/changelog is of another version than $version"
    # host/check runs the tests, in checks/host and make check.
    has 'dpkg-buildpackage' env -C "$packages/inroot" -u LD_LIBRARY_PATH -u PKG_CONFIG_PATH DEB_BUILD_OPTIONS=nocheck \
        dpkg-buildpackage -b -us -uc
    [ "$(find "$packages" -maxdepth 1 -name '*.deb' -printf '%f\n' | sed 's/_.*//' | grep -v -- -dbgsym | sort | paste -sd ' ')" = \
        "$packed_names" ]
    verdict $? "dpkg-buildpackage makes other packages: $(ls "$packages")"
}

# What lintian says beyond the archive and the program, which come built and copy without a look at sizes; and that the
# driver has what hardens it.
packages_look() {
    local name built found
    found=$(lintian -I --allow-root "$packages"/*.changes 2>/dev/null | grep -E '^[EWI]: ')
    ! grep -qvE '^(I: (inroot|libinroot[0-9.]*): hardening-no-fortify-functions \[usr/(bin/inroot|lib/[^]]*)\]|)$' <<<"$found"
    verdict $? "lintian: $found"
    if ! lacks hardening-check 'what hardens the packages'; then
        for name in "$shared_name/usr/lib/*/libinroot.so.$version" inroot/usr/bin/inroot-fs; do
            # shellcheck disable=SC2086
            built=$(hardening-check "$packages"/inroot/debian/$name)
            [ "$(grep -cE '^ (Stack protected|Fortify Source functions|Read-only relocations|Immediate binding): yes' \
                <<<"$built")" -eq 4 ]
            verdict $? "hardening-check: $built"
        done
    fi
}

# into_root OPTION..: dpkg below the root of its own, whose other packages it doesn't ask for.
into_root() {
    dpkg --root="$package_root" --force-depends --force-not-root --force-script-chrootless --force-bad-path "$@"
}

packages_use() {
    local pkgconfig options
    mkdir -p "$package_root"/var/lib/dpkg/{info,updates,triggers}
    : >"$package_root/var/lib/dpkg/status"
    has 'dpkg -i' into_root -i "$packages"/*.deb
    pkgconfig=$(dirname -- "$(find "$package_root" -name inroot.pc)")
    make_box "$work/package-box"
    read -ra options < <(PKG_CONFIG_SYSROOT_DIR=$package_root PKG_CONFIG_PATH=$pkgconfig PKG_CONFIG_ALLOW_SYSTEM_CFLAGS=1 \
        PKG_CONFIG_ALLOW_SYSTEM_LIBS=1 pkg-config --cflags --libs inroot)
    has 'C11 over the packages is built' cc -std=c11 -D_GNU_SOURCE -o "$work/package-used" "$work/use.c" "${options[@]}"
    has 'C11 over the packages runs' env LD_LIBRARY_PATH="${pkgconfig%/pkgconfig}" "$work/package-used" "$work/package-box"
    [ "$("$package_root/usr/bin/inroot-fs" "$work/package-box" cat in/f)" = inside ]
    verdict $? 'inroot-fs of the packages'
    lacks_rust 'the package of bindings/rust' || packages_rust "$pkgconfig"
    if ! lacks_go 'the package of bindings/go'; then
        has 'Go over the packages' env -C "$(dirname -- "$(find "$package_root/usr/share/gocode" -name go.mod)")" \
            GOFLAGS=-mod=readonly GOWORK=off GOPROXY=off GOTOOLCHAIN=local GOCACHE="$work/package-gocache" \
            PKG_CONFIG_SYSROOT_DIR="$package_root" PKG_CONFIG_PATH="$pkgconfig" PKG_CONFIG_ALLOW_SYSTEM_LIBS=1 \
            PKG_CONFIG_ALLOW_SYSTEM_CFLAGS=1 LD_LIBRARY_PATH="${pkgconfig%/pkgconfig}" go test -count=1 ./...
        # As Debian's own packages are built: by the import path, below the directory of all of them.
        has 'Go over the packages, by GOPATH' env -C examples/runtime/unpack-go GO111MODULE=off \
            GOPATH="$package_root/usr/share/gocode" GOTOOLCHAIN=local GOCACHE="$work/package-gocache" \
            PKG_CONFIG_SYSROOT_DIR="$package_root" PKG_CONFIG_PATH="$pkgconfig" PKG_CONFIG_ALLOW_SYSTEM_LIBS=1 \
            PKG_CONFIG_ALLOW_SYSTEM_CFLAGS=1 go build -o "$work/package-unpack-go" .
    fi
    if ! lacks python3 'the package of bindings/python'; then
        [ "$(PYTHONPATH=$package_root/usr/lib/python3/dist-packages LD_LIBRARY_PATH=${pkgconfig%/pkgconfig} \
            python3 -Bc 'import inroot; print(inroot.version())')" = "$version" ]
        verdict $? 'Python over the packages'
    fi
    # shellcheck disable=SC2086
    has 'dpkg -P' into_root -P $packed_names inroot-dbgsym "$shared_name-dbgsym"
    [ -z "$(find "$package_root/usr" ! -type d 2>/dev/null)" ]
    verdict $? "what the packages leave: $(find "$package_root/usr" ! -type d 2>/dev/null)"
}

# packages_rust DIRECTORY: the crate is found in the registry of the package, as Debian's cargo is told to look.
packages_rust() {
    local at=$work/package-rust
    mkdir -p "$at/src" "$at/.cargo"
    printf '[package]\nname = "used"\nversion = "0.0.0"\nedition = "2021"\n[dependencies]\ninroot = "%s"\n' "$version" \
        >"$at/Cargo.toml"
    printf '[source.crates-io]\nreplace-with = "packaged"\n[source.packaged]\ndirectory = "%s/usr/share/cargo/registry"\n' \
        "$package_root" >"$at/.cargo/config.toml"
    printf 'fn main() {\n    println!("{}", inroot::version());\n}\n' >"$at/src/main.rs"
    has 'Rust over the packages is built' env -C "$at" CARGO_TARGET_DIR="$at/target" INROOT_LIB_DIR="${1%/pkgconfig}" \
        cargo build -q --offline
    [ "$(LD_LIBRARY_PATH=${1%/pkgconfig} "$at/target/debug/used")" = "$version" ]
    verdict $? 'Rust over the packages'
}

for name in dpkg-buildpackage dh lintian; do
    if lacks "$name" 'the packages of packaging/debian'; then
        packed_names=
        break
    fi
done
if [ -n "$packed_names" ]; then
    packages_build
    if [ -d "$packages/inroot/debian/inroot" ]; then
        packages_look
        packages_use
    fi
fi
