# How a program of the workspace is run from a script at the top, as `bb` and `bbasm`, which source this file. The first of
# these that is there answers:
#
# 1. the program that `./build` has built here, where no source is newer;
# 2. the program of a release (tools/release) of the same sources, in the folder `release` at the top, or in the one that
#    `RAILCITRON_RELEASE` names;
# 3. `rt try`, in one to three minutes, with nothing proved: the kit's interpreter and, alone for a program that reads
#    arguments, a build with checks. Where this is too slow for an input or finds no answer, nothing is written and the
#    status is 1.
#
# Standard output and the status are the program's in each. Standard error tells of 2 and 3.
#
# A script sets `root`, the folder that it is in, `crate`, `build`, the command that builds the crate, and `write_failed`,
# the program's status where its output failed. It calls `run_built` and `run_released` with its arguments, then
# `take_input`, `interpret` and `answer`.
# shellcheck shell=bash disable=SC2154

program=$root/crates/$crate/out/$crate
mark=$root/crates/$crate/out/built

# `bb` reads 16 MiB and one byte at most, and `rt try` takes less than 64 MiB.
input_limit=$(( 32 << 20 ))

say() {
    echo "$crate: $*" >&2
}

fail() {
    say "$*"
    exit 1
}

too_much() {
    fail "too much for the interpreter, which has limits of steps, seconds and 1 MiB of output: run $build first"
}

# The mark lists the crates of the program. A folder is newer too where a file was taken from it.
is_built() {
    local used sources=("$root/crates.txt")
    [[ -x $program && -s $mark ]] || return
    while read -r used; do
        sources+=("$root/crates/$used"/{src,specs,proofs})
    done <"$mark"
    [[ -z $(find "${sources[@]}" -newer "$mark" -print -quit 2>/dev/null) ]]
}

# Becomes the program, where it is built.
run_built() {
    is_built || return 0
    exec "$program" "$@"
}

# Prints the folder of a release of the sources here that has the program, and tells which it is, or why none is used.
released() {
    local release=${RAILCITRON_RELEASE:-$root/release} commit sources
    [[ -n ${RAILCITRON_RELEASE-} || -e $release ]] || return 0
    if [[ ! -r $release/VERSION || ! -x $release/bin/$crate ]]; then
        say "there is no release with $crate in $release"
        return 0
    fi
    commit=$(sed -n 's/^commit //p' -- "$release/VERSION")
    sources=$(sed -n 's/^sources \([0-9a-f]\{64\}\)$/\1/p' -- "$release/VERSION")
    if [[ -z $sources || $sources != "$(python3 -B -- "$root/tools/sources.py")" ]]; then
        say "the release in $release (commit $commit) is not of the sources here, so it is not used"
        return 0
    fi
    say "the release in $release answers: it was proved from these sources at commit $commit, not here"
    echo "$release"
}

# Becomes the program of a release, where that is of the sources here.
run_released() {
    local release
    release=$(released)
    [[ -z $release ]] || exec "$release/bin/$crate" "$@"
}

# `rt try` ends a standard input that is silent for two seconds, so it is given a file, which is in `room`.
take_input() {
    command -v rt >/dev/null \
        || fail "there is no rt, the kit's command, on the PATH: see 'Requirements' in README.md"
    say "not built since the last change: the kit compiles it with nothing proved, which usually takes one to three minutes; $build builds a proved program, which answers at once"
    room=$(mktemp -d)
    trap 'rm -rf -- "$room"' EXIT
    head -c "$input_limit" >"$room/input" || fail "standard input can't be read"
}

# Tells on standard error how long the interpreter works: each second in one line of a terminal, elsewhere once a minute.
show_time() {
    local began=$SECONDS every=60 form='%s: %d s so far\n' due
    [[ ! -t 2 ]] || { every=1 form='\r%s: %d s so far'; }
    due=$every
    # A `sleep` may be left for a second, and holds no output of the script meanwhile.
    while sleep 1 &>/dev/null && kill -0 "$child" 2>/dev/null; do
        (( SECONDS - began >= due )) || continue
        # shellcheck disable=SC2059
        printf "$form" "$crate" $((SECONDS - began)) >&2
        due=$((due + every))
    done
}

# Ends `show_time`, and clears its line.
hide_time() {
    kill "$clock" 2>/dev/null || true
    wait "$clock" 2>/dev/null || true
    [[ ! -t 2 ]] || printf '\r\e[K' >&2
}

# Ends by a signal, as who called the script expects, once the interpreter is gone.
end_by() {
    trap - "$1"
    kill "$child" 2>/dev/null || true
    wait "$child" || true
    hide_time
    kill -s "$1" $$
}

# Runs `rt try` with these words. What it writes goes into files: only its last line tells whether the program ended,
# since its own statuses are also statuses of the program.
interpret() {
    (cd -- "$root/crates/$crate" && exec rt try "$@" <"$room/input" >"$room/answer" 2>"$room/report") &
    child=$!
    show_time &
    clock=$!
    trap 'end_by HUP' HUP
    trap 'end_by INT' INT
    trap 'end_by TERM' TERM
    wait "$child" || true
    hide_time
}

# What `rt try` says of a run that gave no answer, without the front of that run's output.
report() {
    sed '/^| /d; /^the end of the program/d' "$room/report" >&2
}

# What the program wrote to standard error: all before the lines in which `rt try` tells how it ended.
messages() {
    sed '/^\(interpreter\|checked\): /,$d' "$room/report" >&2
}

# Ends as the program ended under the interpreter.
answer() {
    local ended
    ended=$(sed -n '$s/^run=ended status=\([0-9]*\) .*proved=no$/\1/p' "$room/report")
    if [[ -n $ended ]]; then
        messages
        cat -- "$room/answer" 2>/dev/null || exit "$write_failed"
        exit "$ended"
    fi
    report
    [[ $(tail -n 1 -- "$room/report") == run=no-answer* ]] && too_much
    fail "the interpreter can't run the program: $build tells more"
}
