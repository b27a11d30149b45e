# Sourced by the commands at the root and in tests/, which stand at the root of the repository: builds proved programs, so that none is
# run that is older than its sources. Needs the Rattle kit (rt), awk, sha256sum and flock.

# give_up SENTENCE: on standard error, and an exit status of 1.
give_up() {
    echo "$*" >&2
    exit 1
}

needs_kit() {
    command -v rt >/dev/null || give_up "The Rattle kit is missing: its command rt is not on the path."
}

needs_rust() {
    command -v rustc >/dev/null || give_up "Rust is missing: rustc, which builds the second judge, is not on the path."
}

# build_judge FILE: the second judge, built there.
build_judge() {
    needs_rust
    mkdir -p "$(dirname "$1")"
    rustc -O --edition 2021 -o "$1" tests/second_judge/second_judge.rs >&2 || give_up "The second judge does not build: rustc says why above; it needs a C linker, cc, on the path."
}

# readable FILE: it is standard input (-), or a file that can be read.
readable() {
    [ "$1" = - ] || { [ -r "$1" ] && [ ! -d "$1" ]; }
}

# copy_input FILE COPY: the first 64 KiB of an input, which decide all that a program says of it.
copy_input() {
    if [ "$1" = - ]; then
        head -c 65536 >"$2"
    else
        head -c 65536 <"$1" >"$2"
    fi 2>/dev/null
}

# programs: the crates with a main, as crates.txt lists them.
programs() {
    local crate
    sed -n 's/^\([a-z0-9_]*\):.*/\1/p' crates.txt | while read -r crate; do
        [ ! -e "crates/$crate/src/main.rt" ] || echo "$crate"
    done
}

# program_at PROGRAM: where it stands once it is built.
program_at() {
    echo "crates/$1/out/$1"
}

# crates_under PROGRAM: the crates of the repository that are proved for it, a line each, those that others use first, itself last.
crates_under() {
    awk -v wanted="$1" '
        { sub(/#.*/, "") }
        split($0, part, ":") == 2 { gsub(/[ \t]/, "", part[1]); under[part[1]] = part[2] }
        function visit(name,    list, n, i) {
            if (!(name in under) || name in seen) return
            seen[name] = 1
            n = split(under[name], list, " ")
            for (i = 1; i <= n; i++) visit(list[i])
            print name
        }
        END { visit(wanted) }' crates.txt
}

# made_of PROGRAM: the sum of all that it is built from: the kit, the lists at the root, and the files of its crates.
made_of() {
    local crate
    {
        rt version
        cat crates.txt
        [ ! -e HANDLES ] || cat HANDLES
        for crate in $(crates_under "$1"); do
            find "crates/$crate" -path "crates/$crate/out" -prune -o -type f \( -name '*.rt' -o -name '*.antt' \) -print
        done | LC_ALL=C sort | tr '\n' '\0' | xargs -0 sha256sum
    } | sha256sum
}

# is_built PROGRAM SUM: what stands there was noted for that sum, and is still the same file.
is_built() {
    [ -x "$(program_at "$1")" ] && [ "$(cat "$(program_at "$1").made" 2>/dev/null)" = "$2 $(sha256sum <"$(program_at "$1")")" ]
}

# note_built PROGRAM SUM: what stands there was proved and built from what had that sum before and has it now.
note_built() {
    [ "$(made_of "$1")" = "$2" ] && echo "$2 $(sha256sum <"$(program_at "$1")")" >"$(program_at "$1").made"
}

# progress PROGRAM: reads what rt says as it comes, and writes a line to standard error for each crate that had to be proved.
progress() {
    local line crate under
    mapfile -t under < <(crates_under "$1")
    while IFS= read -r line; do
        case $line in
        'crate '*': modules loaded='*) crate=${line#crate } && crate=${crate%%:*} ;;
        'logic=proved '*) echo "proved $crate, $(printf '%s\n' "${under[@]}" | grep -nx "$crate" | sed 's/:.*//') of ${#under[@]}" >&2 ;;
        'logic=not-proved'*) echo "$crate NOT PROVED" >&2 ;;
        esac
    done
}

# prove PROGRAM: rt proves and builds what has changed, and nothing else; it ends by running the program, here on no input.
prove() {
    mkdir -p target
    (cd "crates/$1" && rt run </dev/null 2>&1 >/dev/null) | tee target/check.log | progress "$1"
    grep -q "^rt: running out/$1;" target/check.log
}

# lock, unlock: between them no other command of the repository builds.
lock() {
    command -v flock >/dev/null || give_up "flock is missing: it is not on the path."
    exec {locked}<crates.txt
    flock "$locked"
}

unlock() {
    exec {locked}<&-
}

# build PROGRAM..: what stands at program_at is that of the present sources, or the command gives up.
build() {
    local program sum
    needs_kit
    for program in "$@"; do
        grep -q "^$program:" crates.txt || give_up "There is no program $program: crates.txt does not list it."
    done
    lock
    for program in "$@"; do
        sum=$(made_of "$program")
        is_built "$program" "$sum" && continue
        prove "$program" || give_up "Not built: what rt said is in target/check.log."
        note_built "$program" "$sum" || give_up "Not built: a source of $program changed meanwhile."
    done
    unlock
}

# copy_crates FOLDER CRATE..: their files there, in a folder that is outside the repository, since rt ci takes no source beside crates/.
copy_crates() {
    local crate part
    mkdir -p "$1/crates"
    [ ! -e HANDLES ] || cp HANDLES "$1/"
    for crate in "${@:2}"; do
        grep "^$crate:" crates.txt >>"$1/crates.txt"
        mkdir "$1/crates/$crate"
        for part in src specs proofs stdin stdout; do
            [ ! -e "crates/$crate/$part" ] || cp -r "crates/$crate/$part" "$1/crates/$crate/"
        done
    done
}
