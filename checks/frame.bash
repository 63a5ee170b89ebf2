# shellcheck shell=bash
# The frame of a check, which each check reads from the top of the repository. It counts what passed and what failed, and
# notes what was skipped. The last line is 'N passed, M failed, K skipped'. The K lines before it say what was skipped and
# why: 'skipped: CHECK: WHAT: WHY'. A skip is neither passed nor failed.

check_name=${check_name:-${0##*/}}
passed=0
failed=0
skipped=()

# verdict STATUS NAME: counts a case by its status, and names it where it failed.
verdict() {
    if [ "$1" -eq 0 ]; then
        passed=$((passed + 1))
    else
        failed=$((failed + 1))
        echo "FAILED $2"
    fi
}

# skip WHAT WHY: notes a case, or several, that this machine can't try.
skip() {
    skipped+=("$check_name: $1: $2")
}

# lacks COMMAND WHAT: whether this machine has no such command. Then WHAT is skipped for want of it.
lacks() {
    command -v "$1" >/dev/null 2>&1 && return 1
    skip "$2" "there is no $1 here"
}

# All that was skipped, a line each.
list_skipped() {
    [ ${#skipped[@]} -eq 0 ] || printf 'skipped: %s\n' "${skipped[@]}"
}

# Whether something was tried, and nothing failed.
is_well() {
    [ "$failed" -eq 0 ] && [ "$passed" -gt 0 ]
}

# end: lists what was skipped, prints the count, and ends the check with the status that the count stands for.
end() {
    list_skipped
    echo "$passed passed, $failed failed, ${#skipped[@]} skipped"
    is_well
    exit
}

# ---- checks/last_green: a row for each part of ./check deep that was green, with the day, the commit and how much was skipped

# note_green PART SKIPPED: writes the row of a part that was green just now. The files must be those of a commit.
note_green() {
    local commit rows
    if ! commit=$(git rev-parse --short=8 HEAD 2>/dev/null) || [ -n "$(git status --porcelain -- . ':!checks/last_green')" ]; then
        echo "checks/last_green: no row for $1, since the files are not those of a commit"
        return
    fi
    rows=$(grep -v "^$1 " checks/last_green)
    printf '%s\n' "$rows" "$(printf '%-9s %s %s %s skipped' "$1" "$(date -u +%F)" "$commit" "$2")" | LC_ALL=C sort >checks/last_green
}

# tell_old PART..: a line for each part that was not green since dist/RELEASE was written.
tell_old() {
    local part release row commit
    release=$(git log -1 --format=%H -- dist/RELEASE 2>/dev/null)
    [ -n "$release" ] || echo 'checks/last_green: here is no git that has dist/RELEASE, to tell which parts of ./check deep are old'
    for part; do
        row=$(grep "^$part " checks/last_green)
        read -r _ _ commit _ <<<"$row"
        [ -z "$release" ] || git merge-base --is-ancestor "$release" "${commit:-none}" 2>/dev/null ||
            echo "checks/last_green: older than the release: ./check deep $part: ${row:-never green}"
    done
}
