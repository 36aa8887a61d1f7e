# What `citrus` does beside running the program that stands: it reads this in. `top`, `proved`, `mistake`, say and is_fresh are its own.
# shellcheck shell=bash disable=SC2034,SC2154
# shellcheck source=build/turns.sh
. "$top/build/turns.sh"
# shellcheck source=build/unproved.sh
. "$top/build/unproved.sh"

# The status of this script's own failures, which no answer of the program has.
no_answer=70

# Finds the toolchain's command, or says that it is missing.
find_toolchain() {
    hash rt 2>/dev/null && return
    say "the Rattle toolchain's command rt is not on the path; README.md names the toolchain under 'Try it'"
    return $no_answer
}

# The answer to words that are no command.
refuse() {
    printf '%s\n' "$usage" >&2
    say "./citrus --help has all commands and their options"
    return 2
}

help() {
    cat <<'END'
usage: citrus COMMAND [OPTIONS] < TEXT
       citrus --unproved COMMAND [OPTIONS] < TEXT

Commands, which read standard input and write standard output:
  run                       run scripts in threads on one search tree, and write an account of them
  run --schedule NUMBER     the same in one thread, in an order of steps that the number draws
  check                     say `yes` or `no`: is the text after the line `account` an account of the scripts before it?
  watch LOW HIGH            as run, and list the pairs with keys from LOW to HIGH four times meanwhile
  load NUMBER SCRIPTS OPS   read nothing; run scripts made from a number, and write a summary
  hash                      run scripts in threads on one hash dictionary, and write an account of them

Options behind a command:
  --waiter eer|d|deer       how a delete waits for readers (run without --schedule, watch, load); eer if left out
  --slots N                 slots of the tree (run, watch, check), from 1 to 2095892; if left out as many as there are puts
  --cookies                 go on with operations while a wait for readers lasts (run without --schedule)

Words of this script alone, as the first word:
  --unproved                answer by a build without proofs, which the first such call makes in half a minute and keeps; without this
                            word the program is proved and built first
  --help, -h                this text
  --version                 the version, the commit and the toolchain

Example:
  ./citrus run < examples/first.txt

Statuses:
  0 done           2 usage: no such command    4 read fault     6 no memory    70 this script has no answer
  1 not an account 3 bad script                5 write fault    7 too long

docs/FORMATS.md has the scripts, the accounts and each command in full.
END
}

# Which version and commit these sources are of, and the toolchain that is on the path.
version() {
    local version='of no known version' prefix commit
    [ ! -r "$top/ffi/VERSION" ] || read -r version <"$top/ffi/VERSION"
    # What stands in a folder of another repository is of no commit there.
    if { read -r prefix && read -r commit; } < <(git -C "$top" rev-parse --show-prefix --short=12 HEAD 2>/dev/null) && [ -z "$prefix" ]; then
        commit="commit $commit"
        [ -z "$(git -C "$top" status --porcelain --untracked-files=no 2>/dev/null)" ] || commit="$commit and changes"
    else
        commit='of no known commit'
    fi
    printf 'citrus %s, %s\n' "$version" "$commit" || return
    if hash rt 2>/dev/null; then
        printf 'toolchain %s\n' "$(rt version)"
    else
        printf 'no toolchain is on the path\n'
    fi
}

# --- an answer by a build without proofs

# Here the program stands that was built without proofs, with what it was built from: apart from the proved one, and never taken for it.
unproved=$top/crates/citrus_cli/out/unproved

# Answers by that program, which is built first where it doesn't stand yet, or a source or the toolchain is another.
unproved() {
    local status=0
    case ${1:-} in --help | -h) help && return ;; esac
    is_command "$@" || say "$mistake"
    [ -z "$mistake" ] || refuse || return
    is_fresh "$unproved" || build_unproved || return
    [ "$1" != load ] || warn_of_load "${@:2}"
    # It was built to stop at what a proof excludes, by an abort.
    ASAN_OPTIONS=abort_on_error=1:allocator_may_return_null=1:detect_leaks=0 "$unproved/citrus_cli" "$@" || status=$?
    if [ "$status" = 134 ]; then
        say "the build without proofs stopped, as it says above: this needs the proved program, the same words without --unproved"
        return $no_answer
    fi
    say "this answer is by a build without proofs; the same words without --unproved prove the program, build it and answer by it"
    return "$status"
}

# What a load costs so: 0.2 ms of a processor for each operation.
warn_of_load() {
    local numbers=() slots='' schedule='' waiter='' cookies=''
    read_arguments "$@"
    if [ $((numbers[1] * numbers[2])) -ge 50000 ]; then
        say "${numbers[1]} scripts of ${numbers[2]} operations take some $((numbers[1] * numbers[2] / 5000)) s of processor time without proofs"
    fi
}

# Whether a program can be kept in this folder, which is made; or says that it can't.
can_keep() {
    mkdir -p "$1" 2>/dev/null && [ -w "$1" ] && return
    say "no program can be built here, since the folder $1 cannot be written"
    return $no_answer
}

# Builds the program without proofs, and keeps it.
build_unproved() {
    find_toolchain && can_keep "$unproved" || return
    say "building the program without proofs, which takes half a minute; it is kept, so later calls with --unproved answer at once"
    # What is loaded before a program can't stand in a folder with a space.
    [[ ${TMPDIR:-} != *[\ :]* ]] || TMPDIR=/tmp
    room=$(mktemp -d) || return $no_answer
    trap 'rm -rf "$room"' EXIT
    touch "$room/since"
    if build_without_proofs "$room" "$top/crates/citrus_cli" </dev/null && keep_program; then
        rm -rf "$room"
        return
    fi
    cat "$room/told" >&2
    say "the program could not be built without proofs"
    return $no_answer
}

# Puts it in its place, beside what it was built from.
keep_program() {
    local name part crates parts=()
    mapfile -t crates < <(crates_below)
    for name in "${crates[@]}"; do
        for part in src specs proofs; do [ ! -d "$top/crates/$name/$part" ] || parts+=("$name/$part"); done
    done
    printf '%s\n' "$(readlink -f "${BASH_CMDS[rt]}")" "${crates[*]}" "${parts[*]}" >"$room/built_from"
    # Whoever may read the sources may run it.
    chmod a+rx "$room/program" && chmod a+r "$room/built_from" && chmod a+rx "${unproved%/*}" "$unproved" &&
        rm -f "$unproved/built_from" && mv -f "$room/program" "$unproved/citrus_cli" &&
        touch -r "$room/since" "$room/built_from" && cp -p "$room/built_from" "$unproved/built_from"
}

# --- the proved program

# Proves and builds the program, unless another call has done so meanwhile.
bring_up_to_date() {
    local status
    find_toolchain && can_keep "$proved" || return
    take_turn "$top" "citrus: another build or gate runs here; waiting for it to end. ./citrus --unproved WORDS answers meanwhile" || return $no_answer
    if is_fresh "$proved"; then
        give_turn
        return 0
    fi
    exec_in_turn python3 "$top/build/side_by_side.py" build "$top" "${BASH_CMDS[rt]}" </dev/null >&2
    status=$?
    if [ "$status" = 3 ]; then
        one_by_one
        status=$?
    fi
    give_turn
    [ "$status" -ge 128 ] || [ "$status" = 0 ] || status=$no_answer
    return "$status"
}

# The crates that the program stands on, the lowest first, and the program.
crates_below() {
    local i line lines name needed=' citrus_cli ' found=()
    mapfile -t lines <"$top/crates.txt"
    # Each crate stands below those that use it.
    for ((i = ${#lines[@]} - 1; i >= 0; i--)); do
        line=${lines[i]}
        case $line in \#* | '') continue ;; esac
        name=${line%%[ :]*}
        case $needed in
            *" $name "*)
                found=("$name" "${found[@]}")
                needed="$needed${line#*:} "
                ;;
        esac
    done
    printf '%s\n' "${found[@]}"
}

# Proves and builds one crate after the other by the toolchain's own commands, where it refuses to do so side by side. What rt says of
# waiting for others is told at once.
one_by_one() {
    local teller status
    room=$(mktemp -d) || return $no_answer
    trap 'rm -rf "$room"' EXIT
    touch "$room/since" "$room/log"
    tail -n +1 -F --pid=$$ "$room/log" 2>/dev/null 9<&- > >(grep --line-buffered '^rt: .*waiting' >&2 9<&-) &
    teller=$!
    build_each && python3 "$top/build/side_by_side.py" record "$top" "${BASH_CMDS[rt]}" "$room/since"
    status=$?
    kill "$teller"
    # The program takes this shell's place, so nothing is left for its end.
    rm -rf "$room"
    return "$status"
}

build_each() {
    local crates name i=0
    mapfile -t crates < <(crates_below)
    say "so ${#crates[@]} crates are proved one after the other, each over all proofs below it; from nothing this takes long"
    for name in "${crates[@]}"; do
        i=$((i + 1))
        say "crate $i of ${#crates[@]}, $name, after $SECONDS s"
        if ! build_crate "$name" >"$room/log" 2>&1 </dev/null; then
            cat "$room/log" >&2
            say "$name could not be built"
            return $no_answer
        fi
    done
}

# The program itself is built by a run without words, which reads and writes nothing.
build_crate() {
    local folder=$top/crates/$1
    if [ "$1" = citrus_cli ]; then
        rm -f "$folder/out/citrus_cli"
        exec_in_turn env -C "$folder" rt run || [ -x "$folder/out/citrus_cli" ]
    else
        exec_in_turn env -C "$folder" rt lib
    fi
}
