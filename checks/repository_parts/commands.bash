# shellcheck shell=bash
# Whether each command that a document shows can be given: its file, its part, its target and its options are there. checks/program
# runs those that begin with a dollar and compares what they print. checks/repository reads this file.

# shown_in DOCUMENT..: each command that stands indented or in backticks, one a line, as `FILE: WORDS`.
shown_in() {
    local document
    for document; do
        {
            # In a man page a command is a line of its own.
            sed -n 's/^[.]Dl \$ //p' "$document"
            sed -nE 's/^    (\$ )?//p' "$document"
            grep -oE '`[^`]+`' "$document" | tr -d '`'
        } | sed 's/&&\|;\|[|]/\n/g' | sed -nE "s/^ *(env -C [^ ]+ )?//; s/\\\\ / /g; \
            /^(\.\/(check|inroot|bench|release)\>|checks\/|tools\/|examples\/[a-z/-]+ |make |inroot |inroot-fs )[^()=]*\$/s|^|$document: |p"
    done
}

parts_of_deep=$(sed -n "s/^parts='\(.*\)'$/\1/p" check)
tests_of_host=$(sed 's/ .*//' host/tests/programs)

# is_one WORD OF..: whether the word is in capitals, which stands for another, or is one of these.
is_one() {
    [[ $1 =~ ^\[?[A-Z]+(\.\.)?\]?$ || $1 == *'$'* ]] || [[ " ${*:2} " == *" $1 "* ]]
}

# can_be_given WORDS [DOCUMENT]: prints what of the command isn't there. Words behind two blanks are none of the command. A
# target of make may be one of a Makefile that the document shows.
can_be_given() {
    local words word name
    local command=${1%%[<>#]*}
    read -ra words <<<"${command%%  *}"
    name=${words[0]}
    case $name in
    ./check)
        is_one "${words[1]-built}" built quick deep || echo "${words[1]}"
        [ "${words[1]-}" != deep ] || for word in "${words[@]:2}"; do
            # shellcheck disable=SC2086
            is_one "$word" $parts_of_deep || [ -d "crates/$word" ] || echo "$word"
        done
        ;;
    checks/host)
        for word in "${words[@]:1}"; do
            # shellcheck disable=SC2086
            is_one "$word" mutants --races $tests_of_host || echo "$word"
        done
        ;;
    make)
        word=Makefile
        for name in "${words[@]:1}"; do
            case $name in
            -C | -j*) ;;
            host) word=host/Makefile ;;
            *) is_one "$name" || [[ $name == *=* ]] || grep -qE "^( *|[a-z ]+ )$name( .*)?:" "$word" "${2-$word}" || echo "$name" ;;
            esac
        done
        ;;
    inroot | ./inroot | inroot-fs)
        word=man/${name#./}.1
        for name in "${words[@]:1}"; do
            case $name in
            --*) grep -qE "^[.]It (Fl . , )?Fl Fl ${name#--}( |\$)" "$word" || echo "$name" ;;
            esac
        done
        case ${words[0]} in
        inroot-fs) name=${words[2]-} ;;
        *) name=${words[1]-} ;;
        esac
        [[ -z $name || $name == -* ]] || is_one "$name" help || grep -q "^[.]It Cm $name\b" "$word" || echo "$name"
        ;;
    *) compgen -G "${name#./}" >/dev/null || [[ $name == *[A-Z]* ]] || echo "$name" ;;
    esac
}
shown=0
while IFS= read -r line; do
    shown=$((shown + 1))
    lack=$(can_be_given "${line#*: }" "${line%%: *}")
    [ -z "$lack" ]
    verdict $? "a command is shown that can't be given: $line: there is no ${lack//$'\n'/, }"
done < <(shown_in "${present[@]}" man/*)
[ "$shown" -ge 100 ]
verdict $? "the documents show $shown commands: are they found?"
wrong='./check dep|./check deep none|checks/host none|checks/none|make none|make -C host none|inroot none|./inroot walk --none|inroot-fs ROOT none'
while IFS= read -r line; do
    [ -n "$(can_be_given "$line")" ]
    verdict $? "a command that can't be given is not found: $line"
done < <(tr '|' '\n' <<<"$wrong")
