# shellcheck shell=bash disable=SC2034,SC2154 # `me` is set, `last` is used, by the scripts that read this file
# What redact, pieces, replay and release share: find the program, build it if needed, run it, judge how it ended.
# The script that reads this file sets `me`, its own name, before. A release has this file beside the programs, in
# libexec/zulmyren, and never builds one.

shared=$(dirname "$(readlink -f "${BASH_SOURCE[0]}")")
if [ -f "$shared/../crates.txt" ]; then
    released=no
    root=$(dirname "$shared")
else
    released=yes
    root=$(dirname "$(dirname "$shared")")
fi

stop() { # STATUS SENTENCE
    printf '%s: %s\n' "$me" "$2" >&2
    exit "$1"
}

version() {
    local number
    read -r number < "$root/VERSION" || stop 2 "the file VERSION cannot be read"
    printf '%s %s\n' "$me" "$number" || exit 1
}

# ---- build if needed

# The crates of crates.txt that the named ones need, the named ones among them, one on a line.
needed() { # NAME...
    awk -v names="$*" '
        { sub(/#.*/, "") }
        split($0, part, ":") == 2 { split(part[1], word, " "); needs[word[1]] = part[2] }
        function visit(name,    word, count, i) {
            if (!(name in needs) || name in seen) return
            seen[name]
            count = split(needs[name], word, " ")
            for (i = 1; i <= count; i++) visit(word[i])
            print name
        }
        END { count = split(names, wanted, " "); for (i = 1; i <= count; i++) visit(wanted[i]) }' "$root/crates.txt"
}

# The sum of all files that a program is made of. It goes by their bytes and not by their times, since a copied or
# unpacked file keeps its old time. A must-fail edit is in no program, and what rt leaves in out/ is no source.
sum_of_sources() { # NAME
    local crates
    mapfile -t crates < <(needed "$1")
    (
        cd "$root" && {
            cat crates.txt
            find "${crates[@]/#/crates/}" -regex 'crates/[^/]*/\(out\|must-fail\)' -prune -o -type f -print0 |
                LC_ALL=C sort -z | xargs -0 sha256sum
        } | sha256sum | cut -d ' ' -f 1
    )
}

# target/made/NAME has the sum of the sources that crates/NAME/out/NAME was built from, and the sum of that program:
# whoever builds another one by hand leaves a program that is not taken for this one.
is_fresh() { # NAME
    local sources='' built=''
    [ -x "$program" ] && [ -s "$made" ] || return 1
    read -r sources built < "$made"
    [ "$sources" = "$(sum_of_sources "$1")" ] && [ "$built" = "$(sha256sum < "$program")" ]
}

# Notes that crates/NAME/out/NAME was built from sources with this sum.
note_built() { # NAME SUM
    echo "$2 $(sha256sum < "$root/crates/$1/out/$1")" > "$root/target/made/$1"
}

# Reads what rt says while it proves and builds a crate, and says how far it is. Of a crate that is not proved it shows
# all that rt said. It ends with 0 where rt came to running the program: what that says is not shown.
show_progress() { # NAME
    local line part='' crate='' word total before='' after=$'\n'
    local -A proved=()
    total=$(needed "$1" | wc -l)
    # A terminal shows one line that changes.
    [ ! -t 2 ] || before=$'\r' after=''
    while IFS= read -r line; do
        part+=$line$'\n'
        case $line in
            'crate '*': modules '*) crate=${line#crate } crate=${crate%%:*} ;;
            'logic=proved '*)
                part=''
                # rt says nothing of a crate that was proved before. What a crate needs is proved when the crate is.
                while IFS= read -r word; do proved[$word]=1; done < <(needed "$crate")
                printf '%s' "$before$me: ${#proved[@]} of $total proved$after" >&2
                ;;
            'rt: running out/'*)
                [ -z "$before" ] || echo >&2
                cat > /dev/null
                return 0
                ;;
        esac
    done
    [ -z "$before" ] || echo >&2
    printf '%s' "$part" >&2
    return 1
}

# What is said after a build that did not end well.
loss='there is no program to run'

# Ends rt and every prover that it started. They are a process group of their own: a shell has what it starts in the
# background pass over Ctrl-C, and rt starts the provers so.
give_up() {
    trap '' INT TERM HUP QUIT
    if [ -n "${!:-}" ]; then
        kill -TERM -- "-$!" 2> /dev/null
        wait "$!" 2> /dev/null
        kill -KILL -- "-$!" 2> /dev/null
    fi
    stop 2 "stopped, and the proving with it: $loss"
}

# Proves and builds a crate by `rt run` or `rt lib` in its folder. rt has no command that builds a program and does not
# run it, so the program is run with no words and no input, and what it says and its status are not looked at. A signal
# to this script ends rt too.
run_rt() { # run|lib NAME
    local status
    trap give_up INT TERM HUP QUIT
    set -m
    (
        cd "$root/crates/$2" || exit 2
        rt "$1" 2>&1 < /dev/null | show_progress "$2"
        each=("${PIPESTATUS[@]}")
        if [ "$1" = run ]; then exit "${each[1]}"; else exit "${each[0]}"; fi
    ) &
    set +m
    wait "$!"
    status=$?
    trap - INT TERM HUP QUIT
    return "$status"
}

# Sees that rt is there and that target/ can be written, and waits until no other script builds in it.
open_target() {
    command -v rt > /dev/null || stop 2 "rt is missing: install Rattle, put its bin folder on the PATH and try again"
    if ! { mkdir -p "$root/target/made" && : > "$root/target/made/lock"; } 2> /dev/null; then
        stop 2 "the folder $root/target cannot be written, so nothing can be built"
    fi
    if command -v flock > /dev/null; then
        exec 9> "$root/target/made/lock"
        flock -n 9 || { echo "$me: waiting for another build to end" >&2; flock 9; }
    fi
}

close_target() {
    exec 9>&-
}

announce() {
    if [ -x "$program" ] && [ -s "$made" ]; then
        echo "$me: the program is not the one that was built from these sources: building it again" >&2
    else
        echo "$me: proving and building the program, this once: some minutes, and more on a slow machine" >&2
    fi
}

build() { # NAME
    local sources
    announce
    sources=$(sum_of_sources "$1")
    rm -f "$made"
    # A program that is missing or was changed is built again: rt looks at its sum.
    run_rt run "$1" || stop 2 "rt run failed in crates/$1: $loss"
    [ -x "$program" ] || stop 2 "rt run left no program in crates/$1/out"
    # Sources that were changed meanwhile have another sum, so the next use builds again.
    note_built "$1" "$sources"
}

# Leaves in `program` the program to run.
make_ready() { # NAME
    if [ "$released" = yes ]; then
        program=$shared/$1
        [ -x "$program" ] || stop 2 "the program $program is missing: unpack the release again"
        return
    fi
    program=$root/crates/$1/out/$1
    made=$root/target/made/$1
    if ! is_fresh "$1"; then
        open_target
        # The build that was waited for may have been of this program.
        is_fresh "$1" || build "$1"
        close_target
    fi
}

# ---- run and judge

need_input() { # ADVICE
    { : 4<&0; } 2> /dev/null || stop 1 "standard input is closed: $1"
}

need_output() { # ADVICE
    { : 4>&1; } 2> /dev/null || stop 1 "standard output is closed: $1"
}

# Runs the program: `said` is what it says on standard error, `last` the last line of that, `ended` its status. A proved
# program has no status of its own: a status other than 0 is the system's.
run_program() { # WORD...
    { said=$("$program" "$@" 2>&1 >&3 3>&-); } 3>&1
    ended=$?
    last=${said##*$'\n'}
}

# Ends with 1 where the program did not end by itself.
judge_end() {
    case $ended in
        0) ;;
        126 | 127) stop 1 "the program could not be started" ;;
        *) stop 1 "the program was stopped by the system (status $ended): throw away what was written" ;;
    esac
}
