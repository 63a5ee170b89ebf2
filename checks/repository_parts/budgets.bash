# shellcheck shell=bash
# How large the repository may be. checks/repository reads this file.

# within WHAT MOST COUNT: there is something, and at most so much.
within() {
    [ "${3:-0}" -ge 1 ] && [ "$3" -le "$2" ]
    verdict $? "$1: ${3:-nothing}, where at most $2 may be"
}
lines_of() { cat -- "$@" | wc -l; }

# Words that stand for a noun, in each thousand words: a reader looks for the noun in the sentences before.
pronouns_in() {
    cat -- "$@" | tr -cs 'A-Za-z' '\n' | awk '
        { words++ }
        tolower($0) ~ /^(it|that|this|those|these|one)$/ { pronouns++ }
        END { print int(pronouns * 1000 / words) }'
}

mapfile -t of_the_library < <(printf '%s\n' host/*.c host/*.h | grep -v '^host/inroot-fs')
within 'lines of docs' 3000 "$(lines_of docs/*.md)"
within 'lines of man' 2600 "$(lines_of man/*)"
within 'words of README.md' 900 "$(wc -w <README.md)"
within 'lines of host/inroot.h' 320 "$(lines_of host/inroot.h)"
within 'pronouns in a thousand words of README.md, docs and host/inroot.h' 35 "$(pronouns_in README.md docs/*.md host/inroot.h)"
within 'lines of C in the library' 1500 "$(lines_of "${of_the_library[@]}")"
within 'lines of the header between C and the proved library' 120 "$(lines_of host/calls.h)"
within 'exports of the proved library' 2 "$(grep -rhE '^pub extern "C" fn' crates/c_library/src | wc -l)"
within 'lines of CHANGELOG.md' 120 "$(lines_of CHANGELOG.md)"
within 'lines of docs/DECISIONS.md' 150 "$(lines_of docs/DECISIONS.md)"
within 'words in the table of docs/MEANING.md' 25 "$(sed -n '/^## Words of/,$p' docs/MEANING.md | grep -c '^| [^h-]\|^| h[^e]')"
if [ -n "$(git ls-files -- checks/repository 2>/dev/null)" ]; then
    within 'files of git' 4000 "$(git ls-files | wc -l)"
else
    skip 'the number of files' 'here is no git that has them'
fi

[ "$(within a 2 3; within a 2 ''; within a 2 2)" = $'FAILED a: 3, where at most 2 may be\nFAILED a: nothing, where at most 2 may be' ]
verdict $? 'more than the budget is not found'
[ "$(pronouns_in <(printf 'It is said that one walks.\n'))" = 500 ] && [ "$(pronouns_in <(printf 'Its item, once.\n'))" = 0 ]
verdict $? 'pronouns are not counted'
