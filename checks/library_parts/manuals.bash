# shellcheck shell=bash disable=SC2154
# Man pages and completions. checks/library reads this file.

# Each call's page has its prototype, word for word.
prototypes() {
    awk '/^[a-z].*inroot_[a-z_]*\(/, /;$/' host/inroot.h | tr '\n' ' ' | sed 's/; */;\n/g; s/  */ /g' |
        grep -v '^struct' | LC_ALL=C sort
}
documented() {
    local page
    for page in man/*.3; do
        awk '
            /^[.]Ft / { type = substr($0, 5); gsub(/"/, "", type); next }
            /^[.]Fn / && type != "" {
                line = substr($0, 5); name = line; sub(/ .*/, "", name); sub(/^[^ ]* */, "", line)
                gsub(/" "/, ", ", line); gsub(/"/, "", line)
                print type (type ~ /\*$/ ? "" : " ") name "(" line ");"; type = ""
            }' "$page"
    done | LC_ALL=C sort
}
[ "$(documented)" = "$(prototypes)" ]
verdict $? "the man pages have other prototypes: $(diff <(documented) <(prototypes))"
for name in $wanted; do
    grep -q "^[.]Nm $name\( ,\)*$" "$prefix/share/man/man3/$name.3"
    verdict $? "there is no man page of $name"
done
for page in man/*.[1357]; do
    grep -q '^[.]Sh EXAMPLES$' "$page"
    verdict $? "$page shows no example"
done
# Each flag of the header is told, and how much of the stack a call takes is told alike.
flags_told=$(grep -o '^    INROOT_[A-Z_]* = ' host/inroot.h | sed 's/ = //')
for name in $flags_told INROOT_NOREPLACE INROOT_EXCHANGE; do
    grep -q "^[.]It Dv $name$\|^[.]Dv $name\b" man/*.[37]
    verdict $? "no man page tells of $name"
done
[ "$(grep -o 'up to [0-9]* kilobytes' man/libinroot.7)" = "$(grep -o 'up to [0-9]* kilobytes' host/inroot.h)" ]
verdict $? 'man/libinroot.7 and inroot.h tell of another size of the stack'
for name in $(sed -n 's/^[.]Xr \(inroot[a-z_-]*\|libinroot\) \([1357]\).*/\1.\2/p' man/* | sort -u); do
    [ -f "$prefix/share/man/man${name##*.}/$name" ]
    verdict $? "a man page names $name, and there is none"
done
# The errors that come before those on a call's page stand in one order.
ordered_in_header() { sed -n '/call that fails returns -errno/,/any other/s/^ \*   \(E[A-Z0-9]*\) .*/\1/p' host/inroot.h; }
ordered_in_manual() { sed -n '/^[.]Ss Errors/,/^[.]Sh/s/^[.]It Bq Er //p' man/libinroot.7; }
[ "$(ordered_in_manual | wc -l)" -ge 15 ] && [ "$(ordered_in_manual)" = "$(ordered_in_header)" ]
verdict $? "man/libinroot.7 has another order of errors: $(diff <(ordered_in_manual) <(ordered_in_header))"
# So do those that a call's own comment names: each paragraph's stand on the call's page, in this order.
named_errors() { tr -c 'A-Z0-9_' '\n' | grep -E '^E[A-Z0-9]{2,}$' | grep -vxE 'ENTRY|EXISTING|ERROR|EXAMPLES'; }
own_paragraphs() {
    awk '
        /^\/\*/ { count = 1; told[1] = ""; inside = 1 }
        inside && /^ \*$/ { told[++count] = "" }
        inside { told[count] = told[count] " " $0; if (/\*\//) inside = 0; next }
        /^[a-z]/ && match($0, /inroot_[a-z_]*\(/) {
            for (at = 1; at <= count; at++) print substr($0, RSTART, RLENGTH - 1), told[at]
        }' host/inroot.h
}
while read -r name told; do
    errors=$(named_errors <<<"$told" | awk '!seen[$0]++')
    [ -n "$errors" ] || continue
    page=$(grep -l "^[.]Nm $name\( ,\)*$" man/*.3)
    # shellcheck disable=SC2086
    named_errors <"$page" | tr '\n' ' ' | grep -qE "(^| )$(printf '%s (.* )?' $errors)"
    verdict $? "$page hasn't the errors of $name, as inroot.h names them in order: ${errors//$'\n'/ }"
done < <(own_paragraphs)
if ! lacks mandoc 'the form of the man pages'; then
    # Which pages of others are installed here is no matter.
    told=$(mandoc -T lint man/*.[1-8] 2>/dev/null | grep -v 'referenced manual not found')
    [ -z "$told" ]
    verdict $? "mandoc -T lint: $told"
fi
# The example of inroot-script(5), where the program is there.
if [ -x "${INROOT_PROGRAM-}" ]; then
    awk '/^[.]Sh / { on = /EXAMPLES/ } on && /^[{ ]/' man/inroot-script.5 >"$work/script"
    told=$("$INROOT_PROGRAM" walk up <"$work/script" 2>&1)
    [ "$told" = "$(sed -n 's/^[.]Dl \(opened .*\)/\1/p' man/inroot-script.5)" ]
    verdict $? "the example of man/inroot-script.5: $told"
else
    skip 'the example of inroot-script(5)' 'INROOT_PROGRAM names no program'
fi
for shell in bash zsh fish; do
    lacks "$shell" "completions for $shell" || lacks python3 "completions for $shell" ||
        has "completions for $shell" python3 checks/library_parts/tab.py "$shell" "$prefix"
done
