# What the counts of instructions share; each script of them sources this. A program of bench/programs is
# built beside a copy of the crates. The programs are kept as texts, since the gate takes each file of
# the language for a part of a crate. A program is proved first, and so is each crate that it needs, which takes
# up to an hour where they were not proved on this machine before. The counts are those of callgrind
# (valgrind), so they do not depend on what else runs.

top=$(cd "$(dirname "$(readlink -f "${BASH_SOURCE[0]}")")/.." && pwd)
work=$(mktemp -d)
trap 'rm -rf "$work"' EXIT

# Builds the program of bench/programs/$1, which needs the crates $2, by a run with the words behind.
build() {
    local name=$1 needs=$2
    shift 2
    mkdir -p "$work/crates/$name/src"
    cp "$top/HANDLES" "$top/crates.txt" "$work/"
    echo "$name: $needs" >>"$work/crates.txt"
    (cd "$top" && tar cf - --exclude=out --exclude=must-fail --exclude=wrong-bodies crates) | tar xf - -C "$work"
    local text
    for text in "$top/bench/programs/$name"/*.txt; do
        cp "$text" "$work/crates/$name/src/$(basename "$text" .txt).rt"
    done
    if ! (cd "$work/crates/$name" && rt run -- "$@" >"$work/log" 2>&1); then
        tail -n 20 "$work/log" >&2
        exit 1
    fi
    program=$work/crates/$name/out/$name
}

# The instructions of the program with these words, which it must answer with status 0.
instructions() {
    valgrind --tool=callgrind --callgrind-out-file=/dev/null "$program" "$@" >/dev/null 2>"$work/counted"
    sed -n 's/.*Collected : \([0-9]*\).*/\1/p' "$work/counted"
}

# The bytes of memory that the program asks for with these words.
asked() {
    valgrind --tool=memcheck "$program" "$@" 2>"$work/asked"
    sed -n 's/.*total heap usage:.* \([0-9,]*\) bytes allocated/\1/p' "$work/asked" | tr -d ,
}

# The most bytes of memory that the program holds at once with these words, by massif (valgrind).
held() {
    valgrind --tool=massif --peak-inaccuracy=0.0 --massif-out-file="$work/massif" "$program" "$@" >/dev/null 2>"$work/held"
    sed -n 's/^mem_heap_B=//p' "$work/massif" | sort -n | tail -n 1
}

# Takes the proved `login` as the program, built where it is not yet, or the file that PROGRAM names.
take_login() {
    program=${PROGRAM:-$top/crates/login/out/login}
    [[ -n ${PROGRAM:-} ]] || "$top/login" replay <"$top/examples/turns.recording" >/dev/null
}

# The most that the program held when it has read all of $work/recording, which has no last line, and waits for more: KiB
# resident, KiB of address space; and its mappings.
memory() {
    local feed=$work/feed program_id
    mkfifo "$feed"
    "$program" replay <"$feed" >/dev/null &
    program_id=$!
    exec 3>"$feed"
    cat "$work/recording" >&3
    until [[ $(cat "/proc/$program_id/syscall") == "0 0x0 "* ]]; do # until it is in `read` of its input
        [[ -e /proc/$program_id/fd/0 ]] # it has not ended
        sleep 0.1
    done
    awk '/^VmHWM/ { r = $2 } /^VmPeak/ { p = $2 } END { print r, p }' "/proc/$program_id/status"
    wc -l <"/proc/$program_id/maps"
    echo end >&3
    exec 3>&-
    wait "$program_id"
    rm "$feed"
}

# The instructions of a replay of $work/recording with its last line.
steps() {
    { cat "$work/recording"; echo end; } | instructions replay
}
