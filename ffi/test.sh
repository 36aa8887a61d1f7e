#!/usr/bin/env bash
# Tests the library as C, C++ and Rust programs see it: installs it into a folder of its own, and runs the programs of ffi/tests, those of
# README.md and docs/EMBEDDING.md, and the tests of the Rust crate. Its last line is `N passed, M failed`, and its status 1 where something failed.
# `test.sh ARCHIVE` takes a libcitrus_c.a that stands elsewhere.
# Functions are called by name as words of others, which shellcheck can't see.
# shellcheck disable=SC2317
set -u
here=$(cd "$(dirname "$0")" && pwd)
top=$(dirname "$here")
checker=$top/crates/citrus_cli/out/citrus_cli
room=$(mktemp -d)
trap 'rm -rf "$room"' EXIT
prefix=$room/installed
passed=0 failed=0

# A case that is told by a status: `case_is NAME WORDS..` runs the words, and shows what they told where they fail.
case_is() {
    local name=$1
    shift
    if "$@" >"$room/told" 2>&1; then
        passed=$((passed + 1))
        echo "ok: $name"
    else
        failed=$((failed + 1))
        tail -n 40 "$room/told"
        echo "FAILED: $name"
    fi
}

# Cases that a program tells itself, by lines `ok: ..` and `FAILED: ..`. One that ends otherwise than it tells, or doesn't end, has failed.
cases_of() {
    local status=0 lost
    timeout 100 "$@" >"$room/told" 2>&1 || status=$?
    cat "$room/told"
    lost=$(grep -c '^FAILED: ' "$room/told")
    passed=$((passed + $(grep -c '^ok: ' "$room/told")))
    failed=$((failed + lost))
    if [ "$status" != 0 ] && { [ "$status" != 1 ] || [ "$lost" = 0 ]; }; then
        failed=$((failed + 1))
        echo "FAILED: $(basename "$1") ended with status $status"
    fi
}

end() {
    echo "$passed passed, $failed failed"
    [ "$failed" = 0 ]
    exit
}

strict=(-O2 -Wall -Wextra -Werror "-I$prefix/include" -pthread)

compile_c() { gcc -std=gnu11 "${strict[@]}" "$here/tests/$1.c" "${@:2}" -L"$prefix/lib" -lcitrus -o "$room/$1"; }
compile_cpp() {
    g++ -std=c++17 "${strict[@]}" -c "$here/tests/$1.cpp" -o "$room/$1_cpp.o" && g++ -pthread "$room/$1_cpp.o" -L"$prefix/lib" -lcitrus -o "$room/$1_cpp"
}

# The same in two steps, for what is linked once more.
object_of_c() { gcc -std=gnu11 "${strict[@]}" -c "$here/tests/$1.c" -o "$room/$1.o"; }
object_of_cpp() { g++ -std=c++17 "${strict[@]}" -c "$here/tests/$1.cpp" -o "$room/$1.o"; }
link_objects() { g++ -pthread "${@:2}" -L"$prefix/lib" -lcitrus -o "$room/$1"; }

compile_all() {
    compile_c answers && compile_c misuse && compile_c own_keys && compile_c moments && compile_c reopened && compile_c tidy && compile_c version && compile_c salts &&
        compile_c backtraces && compile_cpp index && compile_cpp keyed && compile_cpp ranges && compile_c always && compile_c many_handles && compile_c counters && compile_c expired && compile_c lanes &&
        compile_c busy && compile_c crowd &&
        compile_c memory -Wl,--wrap=malloc,--wrap=realloc,--wrap=free && compile_cpp answers && compile_cpp order && compile_cpp whole &&
        compile_c holds && compile_c begun && compile_c keeps && compile_c turns && compile_c objects && compile_c prcu && compile_cpp map &&
        compile_cpp strings && compile_drawn "$prefix/include" "$room/strings_drawn" && compile_soon "$prefix/include" "$room/strings_soon" && compile_floating && compile_debug
}

# The map of strings by drawn schedules, with the headers of a folder: `compile_drawn FOLDER PROGRAM`. Behind these calls another fiber may go on.
gone_over=(citrus_get citrus_insert_once citrus_compare_once citrus_remove_once citrus_take_once citrus_list_once citrus_list_down_once citrus_first_once citrus_enter
    citrus_release citrus_begin citrus_poll sched_yield select)
compile_drawn() {
    g++ -std=c++17 "-I$1" "${strict[@]}" "$here/tests/strings_drawn.cpp" "${gone_over[@]/#/-Wl,--wrap=}" -L"$prefix/lib" -lcitrus -o "$2"
}

# The same by which what is retired is dropped sooner, since rounds are short.
compile_soon() {
    local words='retired_together = 16' map=$room/soon/citrus_string_map.hpp
    rm -rf "$room/soon" && cp -r "$1" "$room/soon" && grep -qF "$words" "$map" && sed -i "s/$words/retired_together = 1/" "$map" && compile_drawn "$room/soon" "$2"
}

# Keys are compiled in each language, by each compiler that is here.
keys_in_each_language() {
    local compiler language
    for compiler in g++ clang++; do
        hash "$compiler" 2>/dev/null || continue
        for language in c++17 c++20 c++2b; do
            "$compiler" "-std=$language" "${strict[@]}" "$here/tests/keys.cpp" -o "$room/keys_$compiler$language" && "$room/keys_$compiler$language" &&
                "$compiler" "-std=$language" "${strict[@]}" -fsyntax-only "$here/tests/keyed.cpp" "$here/tests/ranges.cpp" || return
        done
    done
}

# The judge of whole.cpp, with floating numbers as keys.
compile_floating() { g++ -std=c++17 "${strict[@]}" -DFLOATING_KEYS "$here/tests/whole.cpp" -L"$prefix/lib" -lcitrus -o "$room/whole_floating"; }

# A program of two files.
compile_debug() {
    gcc -std=gnu11 "${strict[@]}" -DOTHER_FILE -c "$here/tests/debug.c" -o "$room/other_file.o" && compile_c debug "$room/other_file.o"
}

# No function of the archive lacks an unwind table, by which a backtrace goes on.
each_function_has_a_table() {
    local functions tables
    functions=$(readelf -sW "$prefix/lib/libcitrus.a" | awk '$4 == "FUNC" && $7 != "UND"' | wc -l)
    tables=$(readelf --debug-dump=frames "$prefix/lib/libcitrus.a" | grep -c ' FDE ')
    echo "$tables tables of $functions functions" && [ "$functions" -gt 0 ] && [ "$tables" = "$functions" ]
}

# A debugger that looks at a call that hangs names who made it.
gdb_names_the_caller() {
    gdb -nx -batch -ex 'handle SIGALRM nostop noprint pass' -ex run -ex 'thread apply all backtrace' --args "$room/backtraces" hang >"$room/report" 2>&1
    grep -q ' citrus_\(insert\|remove\)_once ' "$room/report" && grep -q ' changes_behind_a_reader ' "$room/report" && grep -q ' main ' "$room/report"
}

has_debugger() { hash gdb 2>/dev/null && gdb -nx -batch -ex run --args true 2>&1 | grep -q 'exited normally'; }

# A page shows the program as it is compiled here: `shows PAGE PROGRAM`.
shows() { python3 "$here/tests/page_has.py" "$top/$1" "$here/$2"; }

# A program of a page stands there, and writes the text: `program_of PAGE PROGRAM TEXT WORDS..`, with the words that compile it.
program_of() {
    shows "$1" "$2" && "${@:4}" "$here/$2" "-I$prefix/include" "-L$prefix/lib" -lcitrus -o "$room/first" && [ "$("$room/first")" = "$3" ]
}

# A program that isn't on a page: `example TEXT WORDS..` compiles it, and it writes the text.
example() { "${@:2}" "-I$prefix/include" -L"$prefix/lib" -lcitrus -o "$room/example" && [ "$("$room/example")" = "$1" ]; }

with_pkg_config() {
    local words
    words=$(PKG_CONFIG_PATH=$prefix/lib/pkgconfig pkg-config --cflags --libs citrus) || return
    # shellcheck disable=SC2086
    cc "$here/c/first.c" $words -o "$room/first" && [ "$("$room/first")" = '5 has 50' ]
}

# README's program in Rust, in a folder of its own.
rust_program() {
    mkdir -p "$room/page/src"
    awk '/^```/ { is_rust = $0 ~ /rust$/; next } is_rust' "$top/README.md" >"$room/page/src/main.rs"
    printf '[package]\nname = "page"\nedition = "2021"\n[dependencies]\ncitrus_map = { path = "%s" }\n[workspace]\n' "$here/citrus_map" \
        >"$room/page/Cargo.toml"
    [ "$(cd "$room/page" && in_rust cargo run --offline --quiet)" = '5 has Some(50)' ]
}

in_rust() { CITRUS_LIB_DIR=$prefix/lib CARGO_TARGET_DIR=$room/rust timeout 100 "$@"; }

# An order of all calls of threads that share their keys, which the tool's check holds to be an account: `ordered WAITER THREADS OPERATIONS
# KEYS SEED [tidy]`.
ordered() { ordered_by "$room/order_cpp" "$@"; }
ordered_by() { "$@" >"$room/account" && [ "$("$checker" check <"$room/account")" = yes ]; }

# The same with a reply changed: check says no, so what it says of the others means something.
a_changed_reply_is_refused() {
    "$room/order_cpp" 0 4 2000 4 1 >"$room/account" && sed -i '0,/ gone \([0-9]*\)$/s// none \1/' "$room/account" &&
        [ "$("$checker" check <"$room/account")" = no ]
}

orders() {
    local waiter threads
    for waiter in 0 1 2; do
        for threads in 2 4 8 16; do
            case_is "one order explains all replies, $threads threads, waiter $waiter" ordered $waiter $threads 4000 $((threads / 2 + 1)) 1
            case_is "one order explains all replies, $threads threads, 500 keys, waiter $waiter" ordered $waiter $threads 4000 500 2
        done
        case_is "one order explains all replies, 8 threads, a tidy behind each put, waiter $waiter" ordered $waiter 8 4000 20 3 tidy
    done
    case_is 'a changed reply is refused' a_changed_reply_is_refused
}

# Threads that are stopped where they are, every 20 to 200 us, see more of what others do between two of their steps: `stopped SECONDS WORDS..`
# runs a program so.
stopped() { timeout "$1" env "LD_PRELOAD=$room/jitter.so" "${@:2}"; }

compile_jitter() { gcc -std=gnu11 "${strict[@]}" -fPIC -shared "$here/tests/jitter.c" -o "$room/jitter.so" -ldl -lrt; }

stopped_cases_of() {
    local stops
    echo "with threads that are stopped: ${1##*/}"
    cases_of env "LD_PRELOAD=$room/jitter.so" "$@"
    stops=$(sed -n 's/^jitter: \([0-9]*\) stops of .*/\1/p' "$room/told")
    case_is "threads of ${1##*/} were stopped" [ "${stops:-0}" -gt 0 ]
}

threads_that_are_stopped() {
    local waiter
    case_is 'what stops threads compiles' compile_jitter
    [ -x "$room/jitter.so" ] || return
    stopped_cases_of "$room/whole_cpp"
    stopped_cases_of "$room/own_keys" 2000
    stopped_cases_of "$room/moments" 2000
    stopped_cases_of "$room/counters" 2000
    stopped_cases_of "$room/expired" 2000
    stopped_cases_of "$room/crowd" 200
    stopped_cases_of "$room/objects" 2000
    stopped_cases_of "$room/keeps"
    stopped_cases_of "$room/turns"
    stopped_cases_of "$room/map_cpp" threads
    stopped_cases_of "$room/keyed_cpp" threads
    stopped_cases_of "$room/ranges_cpp" threads
    stopped_cases_of "$room/strings_cpp" threads
    for waiter in 0 1 2; do
        [ ! -x "$checker" ] || case_is "one order explains all replies, 4 threads that are stopped, waiter $waiter" \
            ordered_by stopped 100 "$room/order_cpp" $waiter 4 4000 3 4
    done
}

# Faults that are planted: in front of the library, for which planted.c has one for each of these calls, and in a twin of the library.
wrapped=(get insert_once compare_once upsert_once remove_once take_once list_once first_once last_once begin poll)

# A judge over the first: `compile_planted NAME OBJECT`; and over both.
compile_planted() {
    g++ -pthread "$room/$2.o" "$room/planted.o" "${wrapped[@]/#/-Wl,--wrap=citrus_}" -L"$prefix/lib" -lcitrus -o "$room/$1_planted"
}
compile_judge() { compile_planted "$@" && g++ -pthread "$room/$2.o" "$room/twin.o" -o "$room/$1_twin"; }

compile_judges() {
    local name
    for name in planted own_keys moments counters expired objects crowd keeps turns; do
        gcc -std=gnu11 "${strict[@]}" -c "$here/tests/$name.c" -o "$room/$name.o" || return
    done
    g++ -std=c++17 "${strict[@]}" -c "$here/tests/twin.cpp" -o "$room/twin.o" || return
    for name in own_keys moments counters objects crowd; do compile_judge "$name" "$name" || return; done
    for name in expired keeps turns; do compile_planted "$name" "$name" || return; done
    for name in whole order map; do compile_judge "$name" "${name}_cpp" || return; done
    compile_planted strings strings_cpp
}

# The map without what keeps an object that is compared from being given up: then another one may come to stand at its address, and be taken for
# it. AddressSanitizer doesn't let an address come back soon, so it wouldn't be seen there.
compile_unkept() {
    local line='while (is_compared(object)) std::this_thread::yield();'
    cp -r "$prefix/include" "$room/unkept" && grep -qF "$line" "$room/unkept/citrus_map.hpp" &&
        sed -i "s/$line/static_cast<void>(object);/" "$room/unkept/citrus_map.hpp" &&
        g++ -std=c++17 "-I$room/unkept" "${strict[@]}" "$here/tests/map.cpp" -L"$prefix/lib" -lcitrus -o "$room/unkept_planted"
}

# Words of the headers are other ones in a copy, and the tests of keys, ranges or strings tell of it: `fault_of_keys_is_seen HEADER FROM TO TEST`.
fault_of_keys_is_seen() {
    rm -rf "$room/faulty" && cp -r "$prefix/include" "$room/faulty" && grep -qF "$2" "$room/faulty/$1" && sed -i "s/$2/$3/" "$room/faulty/$1" &&
        g++ -std=c++17 "-I$room/faulty" "${strict[@]}" "$here/tests/$4.cpp" -L"$prefix/lib" -lcitrus -o "$room/faulty_$4" &&
        ! timeout 100 "$room/faulty_$4" >"$room/report" && grep -q '^FAILED: ' "$room/report"
}

# Words of the map of strings are other ones in a copy, and a drawn schedule tells of it: `fault_of_strings_is_seen HEADER FROM TO`.
fault_of_strings_is_seen() {
    rm -rf "$room/faulty" && cp -r "$prefix/include" "$room/faulty" && grep -qF "$2" "$room/faulty/$1" && sed -i "s/$2/$3/" "$room/faulty/$1" &&
        compile_soon "$room/faulty" "$room/faulty_drawn" && ! timeout 60 "$room/faulty_drawn" 4000 >"$room/report" 2>&1
}

# The fault is told of by one of 40 runs: `is_seen FAULT PROGRAM WORDS..`. A case fails, no order is found, or what was given up is read.
is_seen() {
    local seed status
    for ((seed = 1; seed <= 40; seed++)); do
        status=0
        PLANTED=$1 TWIN_FAULT=$1 JITTER_SEED=$seed stopped 10 "$room/$2" "${@:3}" >"$room/report" 2>&1 || status=$?
        cat "$room/report"
        if [ "$status" -ge 128 ] || grep -qE '^FAILED: |^no order explains ' "$room/report"; then return 0; fi
    done
    return 1
}

faults_of_strings() {
    local map=citrus_string_map.hpp
    case_is 'a fault of the C++ strings is told of: a take that does not compare' \
        fault_of_strings_is_seen $map 'own_->index.take(on.at, word) != compared::done' '!own_->index.remove(on.at)'
    case_is 'a fault of the C++ strings is told of: no wait for a value' fault_of_strings_is_seen $map 'own_->domain.wait(key, key);' ''
    case_is 'a fault of the C++ strings is told of: no wait for visits' \
        fault_of_strings_is_seen $map 'own_->domain.wait(of_strings::scans, of_strings::scans);' ''
    case_is 'a fault of the C++ strings is told of: no look whether a layer is empty' fault_of_strings_is_seen $map 'next->key <= of_strings::high_key(its.number)) return' 'next->key < 1) return'
    case_is 'a fault of the C++ strings is told of: a layer is left over' fault_of_strings_is_seen $map 'return its.above && --its.above->pairs <= 0;' 'return false;'
    case_is 'a fault of the C++ strings is told of: a prefix is not compared' \
        fault_of_strings_is_seen citrus_string_layers.hpp 'depth() - known) == 0;' 'depth() - known) < 1000;'
}

planted_faults() {
    local fault
    case_is 'tests compile with planted faults' compile_judges
    [ -x "$room/map_twin" ] || return
    for fault in get insert compare upsert remove take list first last; do
        case_is "a fault in front of the library is told of by one order of all calls: $fault" is_seen $fault whole_planted 400 1 0
    done
    for fault in list first last; do case_is "a fault in front of the library is told of by moments: $fault" is_seen $fault moments_planted 5000; done
    for fault in begin poll; do case_is "a fault in front of the library is told of by objects: $fault" is_seen $fault objects_planted 2000; done
    case_is 'a fault in front of the library is told of by who owns keys: get' is_seen get own_keys_planted 3000
    case_is 'a fault in front of the library is told of by an order for each key: get' is_seen get order_planted 0 4 4000 3 1
    case_is 'a fault in front of the library is told of by counters: compare' is_seen compare counters_planted 2000
    case_is 'a fault in front of the library is told of by entries that expire: take' is_seen take expired_planted 2000
    case_is 'a fault in front of the library is told of by a crowd: busy' is_seen busy crowd_planted 300
    for fault in poll early owing; do case_is "a fault in front of the library is told of by readers that stay: $fault" is_seen $fault keeps_planted; done
    for fault in poll keeper; do
        case_is "a fault in front of the library is told of by nodes with two children beside a reader: $fault" is_seen $fault turns_planted
    done
    case_is 'a fault in front of the library is told of by the C++ map: begin' is_seen begin map_planted 'threads read'
    case_is 'a fault in front of the library is told of by the C++ strings: begin' is_seen begin strings_planted 'threads that share'
    case_is 'the C++ map compiles with a fault' compile_unkept
    case_is 'a fault of the C++ map is told of: an address that comes back' is_seen none unkept_planted 'threads update'
    case_is 'a fault of the C++ keys is told of: negative numbers' fault_of_keys_is_seen citrus_key.hpp 'its & sign ? ~its : its | sign' 'its | sign' keys
    case_is 'a fault of the C++ handles by keys is told of: a page that ends' fault_of_keys_is_seen citrus_keyed.hpp 'key_of(found.next)' std::nullopt keyed
    case_is 'a fault of the C++ ranges is told of: a pass that ends with its page' fault_of_keys_is_seen citrus.hpp 'next_ = page_.next;' 'next_.reset();' ranges
    case_is 'a fault of the C++ ranges is told of: an object that is gone ends them' \
        fault_of_keys_is_seen citrus_map.hpp 'while (at.step())' 'if (at.step())' ranges
    case_is 'a fault of the C++ ranges is told of: a page down that begins with the last string again' \
        fault_of_keys_is_seen citrus_string_map.hpp 'is_down ? last_ : last_' 'last_' strings
    faults_of_strings
    for fault in remove replace list; do
        case_is "a fault in a twin of the library is told of by one order of all calls: $fault" is_seen $fault whole_twin 3000 1 0 6
    done
    case_is 'a fault in a twin of the library is told of by who owns keys: reclaim' is_seen reclaim own_keys_twin 3000
    case_is 'a fault in a twin of the library is told of by moments: list' is_seen list moments_twin 5000
    case_is 'a fault in a twin of the library is told of by objects: wait' is_seen wait objects_twin 2000
    case_is 'a fault in a twin of the library is told of by a crowd: busy' is_seen busy crowd_twin 300
    case_is 'a twin of the library without a fault has one order of all calls' stopped 100 "$room/whole_twin" 1000 1 0
}

# AddressSanitizer says what is read after it was freed. It watches the tests alone, since the library is compiled without its marks.
sanitized=(-g -fsanitize=address -fno-omit-frame-pointer)

# Whether programs can be made with it, and run here.
has_sanitizer() {
    printf 'int main(void) { return 0; }\n' | gcc "${sanitized[@]}" -o "$room/tried" -xc - 2>/dev/null && "$room/tried" 2>/dev/null
}

# With a sanitizer's marks g++ 12 takes an empty std::optional for one that is read.
marked_cpp=(-Wno-maybe-uninitialized)

# The cases of prcu.c wait in a section's thread for keys that it hasn't, which CITRUS_DEBUG refuses.
compile_sanitized() {
    local name
    for name in freed objects busy crowd keeps turns; do
        gcc -std=gnu11 "${strict[@]}" "${sanitized[@]}" -DCITRUS_DEBUG "$here/tests/$name.c" -L"$prefix/lib" -lcitrus -o "$room/${name}_sanitized" || return
    done
    gcc -std=gnu11 "${strict[@]}" "${sanitized[@]}" "$here/tests/prcu.c" -L"$prefix/lib" -lcitrus -o "$room/prcu_sanitized" || return
    for name in map strings ranges; do
        g++ -std=c++17 "${strict[@]}" "${marked_cpp[@]}" "${sanitized[@]}" -DCITRUS_DEBUG "$here/tests/$name.cpp" -L"$prefix/lib" -lcitrus -o "$room/${name}_sanitized" || return
    done
}

under_a_sanitizer() { ASAN_OPTIONS=detect_leaks=0 timeout 100 "$room/$1_sanitized" "${@:2}"; }

# Whether the sanitizer tells that something freed is read.
is_told_of() { ! under_a_sanitizer "$@" >"$room/report" 2>&1 && grep -q heap-use-after-free "$room/report"; }

values_under_a_sanitizer() {
    case_is 'the tests compile with AddressSanitizer' compile_sanitized
    [ -x "$room/ranges_sanitized" ] || return
    case_is 'a hold, and a wait before the free: nothing freed is read' under_a_sanitizer freed hold wait
    case_is 'AddressSanitizer tells of a free without a wait' is_told_of freed hold none
    case_is 'AddressSanitizer tells of a get in place of a hold' is_told_of freed get wait
    case_is 'objects under AddressSanitizer' under_a_sanitizer objects 3000
    case_is 'updates that are busy under AddressSanitizer' under_a_sanitizer busy
    case_is 'a crowd under AddressSanitizer' under_a_sanitizer crowd 300
    case_is 'readers that stay under AddressSanitizer' under_a_sanitizer keeps
    case_is 'nodes with two children beside a reader that stays under AddressSanitizer' under_a_sanitizer turns
    case_is 'predicate RCU alone under AddressSanitizer' under_a_sanitizer prcu
    case_is 'the C++ map under AddressSanitizer' under_a_sanitizer map
    case_is 'the C++ strings under AddressSanitizer' under_a_sanitizer strings
    case_is 'the C++ ranges under AddressSanitizer' under_a_sanitizer ranges
}

# What a thread hands over by the index is in order for ThreadSanitizer, since the header says so; without those words it tells of a race.
compile_for_races() { gcc -std=gnu11 -g "${strict[@]}" -fsanitize=thread "$here/tests/$1.c" "${@:3}" -L"$prefix/lib" -lcitrus -o "$room/$2"; }
compile_strings_for_races() {
    g++ -std=c++17 -g "${strict[@]}" "${marked_cpp[@]}" -fsanitize=thread -DCITRUS_DEBUG "$here/tests/strings.cpp" -L"$prefix/lib" -lcitrus -o "$room/strings_raced"
}
is_told_of_a_race() { ! timeout 100 "${laid_out[@]}" "$room/published_unsaid" >"$room/report" 2>&1 && grep -q 'data race' "$room/report"; }

# It takes addresses that some kernels give to others, unless those are always the same.
laid_out=(setarch -R)
has_thread_sanitizer() {
    printf 'int main(void) { return 0; }\n' | gcc -fsanitize=thread -o "$room/tried" -xc - 2>/dev/null && "${laid_out[@]}" "$room/tried" 2>/dev/null
}

hand_overs() {
    case_is 'programs compile with ThreadSanitizer' compile_for_races published published
    case_is 'what is handed over by the index is no race for ThreadSanitizer' timeout 100 "${laid_out[@]}" "$room/published"
    case_is 'programs compile with ThreadSanitizer and CITRUS_NO_TSAN' compile_for_races published published_unsaid -DCITRUS_NO_TSAN
    case_is 'ThreadSanitizer tells of a race where nobody tells it of the index' is_told_of_a_race
    case_is 'a crowd compiles with ThreadSanitizer' compile_for_races crowd crowd_raced -DCITRUS_DEBUG
    case_is 'a crowd has no race for ThreadSanitizer' timeout 100 "${laid_out[@]}" "$room/crowd_raced" 100
    case_is 'readers that stay compile with ThreadSanitizer' compile_for_races keeps keeps_raced -DCITRUS_DEBUG
    case_is 'readers that stay have no race for ThreadSanitizer' timeout 100 "${laid_out[@]}" "$room/keeps_raced"
    case_is 'nodes with two children beside a reader that stays compile with ThreadSanitizer' compile_for_races turns turns_raced -DCITRUS_DEBUG
    case_is 'nodes with two children beside a reader that stays have no race for ThreadSanitizer' timeout 100 "${laid_out[@]}" "$room/turns_raced"
    case_is 'the C++ strings compile with ThreadSanitizer' compile_strings_for_races
    case_is 'the C++ strings have no race for ThreadSanitizer' timeout 100 "${laid_out[@]}" "$room/strings_raced" threads
}

# The Rust crate's own tests, counted as cargo counts them. What compiles them has a time of its own, and so have those of its pages.
rust_tests() {
    local status lost=$failed told='^test result: .* ([0-9]+) passed; ([0-9]+) failed'
    (cd "$here/$1" && in_rust cargo test --offline --quiet --no-run && in_rust cargo test --offline --quiet --tests && in_rust cargo test --offline --quiet --doc) >"$room/told" 2>&1
    status=$?
    while read -r; do
        [[ $REPLY =~ $told ]] || continue
        passed=$((passed + BASH_REMATCH[1]))
        failed=$((failed + BASH_REMATCH[2]))
    done <"$room/told"
    if [ "$status" = 0 ]; then
        echo "ok: the Rust tests of $1"
    else
        cat "$room/told"
        [ "$failed" -gt "$lost" ] || failed=$((failed + 1))
        echo "FAILED: the Rust tests of $1 ended with status $status"
    fi
}

# An example of the crate writes the text: `rust_example NAME TEXT`.
rust_example() { [ "$(cd "$here/citrus_map" && in_rust cargo run --offline --quiet --example "$1")" = "$2" ]; }

# A page shows it too: `rust_example_of PAGE NAME TEXT`.
rust_example_of() { shows "$1" "citrus_map/examples/$2.rs" && rust_example "$2" "$3"; }

# A check and the pages need no archive. What is linked does, and is told where it is looked for.
without_an_archive() {
    (cd "$here/citrus_map" && env -u CITRUS_LIB_DIR PKG_CONFIG_PATH='' PKG_CONFIG_LIBDIR="$room" CARGO_TARGET_DIR="$room/unlinked" timeout 100 cargo "$@" --offline)
}
rust_links_alone_take_the_archive() {
    without_an_archive check && without_an_archive doc --no-deps && ! without_an_archive build 2>"$room/report" && grep -q 'set CITRUS_LIB_DIR' "$room/report" &&
        grep -q 'could not find native static library' "$room/report"
}

# What takes a nightly toolchain of Rust, which isn't fetched: `in_nightly FOLDER WORDS..` runs cargo's words in a folder.
in_nightly() { (cd "$1" && RUSTUP_AUTO_INSTALL=0 in_rust cargo +nightly "${@:2}"); }

# What mustn't compile is refused for the reason that stands there. A stable toolchain doesn't look at the codes.
refusals_have_their_codes() { in_nightly "$here/citrus_map" test --offline --quiet --doc; }

# The tests of Map and its ranges under AddressSanitizer: no value is read after it was dropped, and none is left over. `sanitized FOLDER [TEST]`.
sanitized() {
    local host
    host=$(rustc -vV | sed -n 's/^host: //p')
    RUSTFLAGS=-Zsanitizer=address in_nightly "$1" test --offline --quiet --target "$host" --test map --test map_ranges "${@:2}"
}

# It does report a crate whose removals don't wait before they give a value back.
sanitizer_reports_a_wait_left_out() {
    local line='self.handle.wait(node.key()..=node.key())'
    cp -r "$here/citrus_map" "$room/unwaited" && grep -qF "$line" "$room/unwaited/src/map.rs" &&
        sed -i "s/$line/Ok::<(), Error>(())/" "$room/unwaited/src/map.rs" &&
        ! sanitized "$room/unwaited" threads_read_what_is_there >"$room/unwaited_told" 2>&1 &&
        grep -q 'AddressSanitizer: heap-use-after-free' "$room/unwaited_told"
}

# The tests tell of a map that makes a key a word twice, for a key that answers otherwise then: a node is waited for by another key.
a_second_word_is_told_of() {
    local line='self.handle.insert(word, node.word())'
    cp -r "$here/citrus_map" "$room/twice" && grep -qF "$line" "$room/twice/src/map.rs" &&
        sed -i "s/$line/self.handle.insert(key.encode(), node.word())/" "$room/twice/src/map.rs" &&
        ! (cd "$room/twice" && in_rust cargo test --offline --quiet --test map what_a_key_that_lies_put_in_is_waited_for) >"$room/report" 2>&1 && grep -q "taken out under a reader" "$room/report"
}

# The tests tell of a range whose ends go past each other: what is left of the upper page is told from above.
ends_that_cross_are_told_of() {
    local line='self.upper.next_back().map(Ok)'
    cp -r "$here/citrus_map" "$room/crossed" && grep -qF "$line" "$room/crossed/src/ranges.rs" &&
        sed -i "s/$line/self.upper.next().map(Ok)/" "$room/crossed/src/ranges.rs" &&
        ! (cd "$room/crossed" && in_rust cargo test --offline --quiet --test ranges ranges_are_gone_through) >"$room/report" 2>&1 && grep -q 'assertion .*failed' "$room/report"
}

# Where strings are the keys too, by drawn schedules as well. Each part has a time of its own, and so has what compiles them.
sanitized_strings() {
    local host words
    host=$(rustc -vV | sed -n 's/^host: //p')
    for words in '--lib --test strings --test string_threads --no-run' --lib '--test strings' '--test string_threads'; do
        # shellcheck disable=SC2086
        RUSTFLAGS=-Zsanitizer=address DRAWN_ROUNDS=300 in_nightly "$here/citrus_map" test --offline --quiet --target "$host" $words || return
    done
}

# A line of the map of strings is another one in a copy, and a drawn schedule tells of it: `fault_of_rust_strings_is_seen FILE FROM TO`.
fault_of_rust_strings_is_seen() {
    rm -rf "$room/faulty_crate" && cp -r "$here/citrus_map" "$room/faulty_crate" && grep -qF "$2" "$room/faulty_crate/src/strings/$1" &&
        sed -i "s/$2/$3/" "$room/faulty_crate/src/strings/$1" && (cd "$room/faulty_crate" && in_rust cargo test --offline --quiet --lib --no-run) &&
        ! (cd "$room/faulty_crate" && DRAWN_ROUNDS=4000 in_rust cargo test --offline --quiet --lib strings::drawn) >"$room/report" 2>&1 && grep -q 'the schedule of seed' "$room/report"
}

faults_of_rust_strings() {
    case_is 'a fault of the Rust strings is told of: no wait for a value' \
        fault_of_rust_strings_is_seen retired.rs 'self.domain.wait(key..=key).and_then(|()| self.domain.wait(SCANS..=SCANS))' 'self.domain.wait(SCANS..=SCANS)'
    case_is 'a fault of the Rust strings is told of: a layer is left over' \
        fault_of_rust_strings_is_seen ways.rs 'may_be_empty: above.map_or(false, Layer::lost)' 'may_be_empty: above.is_some() \&\& false'
    case_is 'a fault of the Rust strings is told of: no look whether a layer is empty' \
        fault_of_rust_strings_is_seen ways.rs 'key <= high_key(number)' 'key < 1 + 0 * high_key(number)'
}

rust_maps() {
    case_is 'the cache in Rust' rust_example cache '5 swept; 3 has Some(6) letters, 4 has None'
    case_is "README's program in Rust, an example" rust_example_of README.md first '5 has Some(50)'
    case_is "the page's map in Rust" rust_example_of docs/EMBEDDING.md names $'5 is five\nSome("five") is gone'
    case_is "the page's map of strings in Rust" rust_example_of docs/EMBEDDING.md ages $'70\nuser:7 is 70\nSome(70) is gone'
    faults_of_rust_strings
    case_is 'the Rust tests tell of a key that becomes a word twice' a_second_word_is_told_of
    case_is 'the Rust tests tell of a range whose ends cross' ends_that_cross_are_told_of
    case_is 'the Rust crate is checked, and its pages are made, without the archive' rust_links_alone_take_the_archive
    if RUSTUP_AUTO_INSTALL=0 cargo +nightly --version >/dev/null 2>&1; then
        case_is "what mustn't compile in Rust is refused for its reason" refusals_have_their_codes
        case_is 'values of a Rust map under AddressSanitizer' sanitized "$here/citrus_map"
        case_is 'strings of a Rust map under AddressSanitizer' sanitized_strings
        case_is 'AddressSanitizer reports a wait left out' sanitizer_reports_a_wait_left_out
    else
        echo 'left out: Rust under AddressSanitizer, since cargo has no nightly toolchain'
    fi
}

# What it says of proofs that are made first is told at once.
"$here/install.sh" "$prefix" "$@"
case_is 'the library is built and installed' [ -e "$prefix/lib/pkgconfig/citrus.pc" ]
[ "$failed" = 0 ] || end
case_is 'each function has an unwind table' each_function_has_a_table
case_is 'one version is named everywhere' python3 "$top/build/version.py" --check
cases_of "$here/tests/headers.sh" "$prefix/include"
case_is "README's program in C" program_of README.md c/first.c '5 has 50' gcc -Wall -Wextra -Werror
case_is "README's program in C++" program_of README.md cpp/first.cpp '5 has 50' g++ -std=c++17 -Wall -Wextra -Werror -pthread
case_is "the page's map in C++" program_of docs/EMBEDDING.md cpp/names.cpp $'-5 is negative\nnegative is gone' g++ -std=c++17 -Wall -Wextra -Werror -pthread
case_is "the page's map of strings in C++" program_of docs/EMBEDDING.md cpp/ages.cpp $'70\nuser:7 is 70\n70 is gone' g++ -std=c++17 -Wall -Wextra -Werror -pthread
case_is 'the cache in C' example '5: five' gcc -Wall -Wextra -Werror "$here/c/cache.c"
case_is 'the cache in C++' example '5: five' g++ -std=c++17 -Wall -Wextra -Werror -pthread "$here/cpp/cache.cpp"
if hash pkg-config 2>/dev/null; then case_is "README's program by pkg-config" with_pkg_config; else echo 'left out: pkg-config'; fi
case_is 'words of C++ keys in each language' keys_in_each_language
case_is 'the tests compile' compile_all
[ -x "$room/order_cpp" ] || end
for program in answers misuse memory moments own_keys always many_handles counters expired busy crowd reopened lanes tidy salts version backtraces answers_cpp index_cpp; do cases_of "$room/$program"; done
for program in holds begun keeps turns objects prcu debug map_cpp keyed_cpp ranges_cpp strings_cpp whole_cpp whole_floating; do cases_of "$room/$program"; done
for program in strings_drawn strings_soon; do cases_of "$room/$program" 2000; done
if has_debugger; then case_is 'gdb names the caller of a call that hangs' gdb_names_the_caller; else echo 'left out: gdb'; fi
threads_that_are_stopped
[ ! -x "$room/jitter.so" ] || planted_faults
if has_thread_sanitizer; then hand_overs; else echo 'left out: ThreadSanitizer'; fi
if has_sanitizer; then values_under_a_sanitizer; else echo 'left out: AddressSanitizer'; fi
if [ -x "$checker" ]; then orders; else echo "left out: one order of all calls, since $checker isn't built"; fi
for crate in citrus_map server; do [ ! -e "$here/$crate/Cargo.toml" ] || rust_tests "$crate"; done
[ ! -x "$room/rust/debug/citrus_server" ] || cases_of "$here/server/clients.sh" "$room/rust/debug/citrus_server"
if [ -e "$here/citrus_map/Cargo.toml" ]; then
    case_is "README's program in Rust" rust_program
    rust_maps
fi
end
