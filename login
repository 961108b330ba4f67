#!/usr/bin/env bash
# Runs the program `login` with the words given. Where it is not built yet, or was built from other sources,
# each crate is proved and the program built first; only a program that was proved is built. All that this
# script says goes to standard error; standard output is the program's.
#
# usage: ./login replay < examples/turns.recording
# Exit status: the program's own. Words that are no command end with its usage line and status 1, without a
# build. Where no program can be run the status is 125, and one line says why.
set -uo pipefail
shopt -s execfail # so that a program that does not start has its status here

say() {
    echo "login: $*" >&2
}

die() {
    say "$*"
    exit 125
}

top=$(dirname "$(readlink -f "${BASH_SOURCE[0]}")")
program=$top/crates/login/out/login
mark=$program.built # the checksum of the sources that the program was built from, and its own
log=$program.log    # what rt said while it was built

# Whether the words are a command of the program. The name of a folder is not empty and does not begin with a dash.
is_command() {
    [[ ($# == 1 && $1 == replay) ||
        ($# == 2 && $1 == serve && $2 == --dir=[!-]*) ||
        ($# == 3 && $1 == serve && $2 == --dir && $3 == [!-]*) ]]
}

# The program's line for words that are no command, as its sources have it.
usage_line() {
    grep -om1 'usage: login [^"\\]*' "$top/crates/replay/src/reporting.rt"
}

# The crates that the program is made of, lowest first.
crates() {
    awk -F: '
        function visit(name,  deps, count, i) {
            if (!(name in below) || name in seen) return
            seen[name]
            count = split(below[name], deps, " ")
            for (i = 1; i <= count; i++) visit(deps[i])
            print name
        }
        { sub(/#.*/, ""); split($1, words, " "); if (NF > 1) below[words[1]] = $2 }
        END { visit("login") }' "$top/crates.txt"
}

# The checksum of the names and contents of the files of these crates.
sources() {
    cd "$top/crates" && (($# > 0)) &&
        find ../crates.txt "$@" \( -name out -o -name must-fail -o -name wrong-bodies \) -prune -o -type f -print0 |
        LC_ALL=C sort -z | xargs -0 sha256sum | sha256sum
}

# What is kept beside a program that was built from sources with this checksum.
marking() {
    echo "$1" && sha256sum <"$program"
}

# Proves a crate and builds it. The program is run too, over a recording that it plays to its end.
build_crate() {
    cd "$top/crates/$1" || return 1
    if [[ $1 == login ]]; then
        rt run -- replay <"$top/examples/turns.recording"
    else
        rt lib </dev/null
    fi
}

# Builds the program from these crates, whose sources have this checksum.
build() {
    local checksum=$1 number=0 name
    shift
    command -v rt >/dev/null || die "not built: the command 'rt' of the Rattle kit is not on the PATH"
    { mkdir -p "${program%/*}" && : >"$log"; } 2>/dev/null || die "not built: crates/login/out cannot be written"
    say "each crate is proved first, which takes some 75 to 122 minutes of processor time where none was proved before"
    for name; do
        number=$((number + 1))
        say "crate $number of $#: $name"
        (build_crate "$name") >>"$log" 2>&1 || die "not built: $name failed; the end of $log says why"
    done
    [[ -x $program ]] || die "not built: rt left no program"
    marking "$checksum" 2>/dev/null >"$mark" || die "not built: crates/login/out cannot be written"
    say "built, and proved; running it"
}

if ! is_command "$@"; then
    line=$(usage_line 2>/dev/null) || die "not run: the usage line is not in the sources"
    echo "$line" >&2
    exit 1
fi
mapfile -t names < <(crates 2>/dev/null)
checksum=$(sources "${names[@]}" 2>/dev/null) || die "not built: the sources cannot be read"
if [[ ! -x $program || $(marking "$checksum" 2>/dev/null) != "$(cat "$mark" 2>/dev/null)" ]]; then
    build "$checksum" "${names[@]}"
fi
exec "$program" "$@"
exit 125
