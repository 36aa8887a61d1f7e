#!/usr/bin/env bash
# Compiles the headers alone, as strict programs see them: `headers.sh FOLDER_OF_HEADERS`. Each compiler that is here takes them without a
# warning in each language from C99 to C23 and from C++17 to C++23, with CITRUS_DEBUG and under ThreadSanitizer too. Its lines are `ok: ..` and
# `FAILED: ..`, and its status is 1 where something failed. It takes some seconds.
set -u
include=$1
room=$(mktemp -d)
trap 'rm -rf "$room"' EXIT
failed=0

# What a program may do with the headers: a static handle that is closed from the start and is closed again, and all that is inline.
cat >"$room/alone.c" <<'END'
#include <citrus.h>
#include <prcu.h>
static citrus_handle kept = CITRUS_CLOSED_HANDLE;
int hand_on(uint64_t key);
int hand_on(uint64_t key) {
    citrus_handle mine = CITRUS_CLOSED_HANDLE;
    prcu_place place = PRCU_CLOSED_PLACE;
    citrus_lanes lanes = CITRUS_CLOSED_LANES;
    citrus_options options = citrus_options_for(100, 2, CITRUS_EER);
    citrus_answer answer;
    uint64_t value = 0;
    int32_t status = citrus_open(&mine, 100, 2, CITRUS_EER);
    kept = citrus_closed_handle();
    options.salt = key;
    if (status == CITRUS_DONE) status = citrus_open_with(&kept, &options);
    if (status == CITRUS_DONE) status = citrus_open_keeping(&kept, &options, 16);
    if (status == CITRUS_DONE) status = citrus_insert(&mine, key, 50);
    while (status == CITRUS_DONE && (status = citrus_replace_once(&mine, key, 51, &value)) == CITRUS_BUSY) status = citrus_wait(&mine, 0, key);
    if (status == CITRUS_DONE) status = citrus_hold(&mine, key, &value);
    citrus_release(&mine);
    lanes = citrus_closed_lanes();
    if (status == CITRUS_DONE) status = citrus_open_lanes(&mine, &lanes, 1);
    if (status == CITRUS_DONE) status = citrus_get_many(&lanes, &key, 1, &answer, 1);
    citrus_close_lanes(&lanes);
    citrus_close(&mine);
    prcu_leave(&place);
    if (citrus_fair_share(&mine, 1) || prcu_fair_share(&place, 1)) status = CITRUS_LOST;
    return citrus_status_name(status)[0] + citrus_version()[0] + CITRUS_VERSION[0] + CITRUS_VERSION_MINOR;
}
END
cat >"$room/alone.cpp" <<'END'
#include <citrus_index.hpp>
#include <citrus_map.hpp>
#include <citrus_string_map.hpp>
#include <prcu.h>
template class citrus::map<int>;
template class citrus::map<std::pair<int, float>, int>;
template class citrus::index<double, int *>;
template class citrus::string_map<std::unique_ptr<int>>;
template class citrus::keyed_lanes<bool, char>;
template class citrus::keyed_range<short, float>;
template class citrus::held_range<uint64_t, int>;
template class citrus::held_range<std::pair<int, float>, int>;
static citrus_handle kept = CITRUS_CLOSED_HANDLE;
bool is_kept();
bool is_kept() {
    kept = citrus_closed_handle();
    citrus::handle mine(100, 2), fixed(citrus::options{100, 2, citrus::waiter::eer, 5, 4096});
    citrus::index index(100, 2);
    citrus::string_map<int> strings(100, 2);
    strings.each("five", "six", [](std::string_view, int) {});
    strings.update("five", [](int value) { return value + 1; });
    strings.remove_if("five", [](int value) { return value > 5; });
    strings.each_down("five", "six", [](std::string_view, int) {});
    for (const auto &[key, value] : index.range(1, 5)) index.upsert(key, value + 1);
    for (auto all = mine.range(), *at = &all; at->rbegin() != at->rend();) mine.pop_last();
    return mine.insert(5, 50) && fixed.insert(5, 50) && mine.hold(5) && kept.at && index.insert(5, 50);
}
END
printf '#include <citrus.h>\nvoid forget(citrus_handle *mine);\nvoid forget(citrus_handle *mine) { citrus_insert(mine, 5, 50); }\n' >"$room/forgotten.c"
printf '#include <citrus_index.hpp>\n#include <citrus_map.hpp>\n#include <citrus_string_map.hpp>\n' >"$room/old.cpp"
# What can't be a key, and the sentence that says so.
no_keys=(
    'citrus::index<std::pair<uint64_t, bool>> kept(1, 1); // a key has 64 bits at most'
    'citrus::map<std::tuple<int, int, char>, int> kept(1, 1); // a key has 64 bits at most'
    'citrus::keyed_handle<std::array<short, 5>> kept; // a key has 64 bits at most'
    "citrus::index<std::string> kept(1, 1); // a key's type has citrus::key_traits"
    "citrus::map<const char *, int> kept(1, 1); // a key's type has citrus::key_traits"
    "citrus::map<std::pair<int, std::string>, int> kept(1, 1); // a key's type has citrus::key_traits"
    'citrus::index<int, std::string> kept(1, 1); // a value can be copied as bytes'
    'citrus::index<int, std::array<int, 3>> kept(1, 1); // a value can be copied as bytes'
)

told() {
    if [ "$1" = 0 ]; then
        echo "ok: $2"
    else
        failed=1
        head -n 20 "$room/told"
        echo "FAILED: $2"
    fi
}

# `quiet COMPILER LANGUAGES FILE WORDS..`: without a warning in each of these languages.
quiet() {
    local compiler=$1 file=$3 language status=0
    for language in $2; do
        "$compiler" "-std=$language" -Wall -Wextra -Wpedantic -Wconversion -Wshadow -Werror -fsyntax-only -pthread "-I$include" "${@:4}" \
            "$room/$file" >>"$room/told" 2>&1 || { status=1 && echo "$compiler -std=$language ${*:4}" >>"$room/told"; }
    done
    return $status
}

# As it stands, and in the first of these languages with the test of sections and under ThreadSanitizer too.
in_all_forms() {
    : >"$room/told"
    quiet "$@" && quiet "$1" "${2%% *}" "${@:3}" -fsanitize=thread && quiet "$1" "${2%% *}" "${@:3}" -fsanitize=thread -DCITRUS_DEBUG
    told $? "$1 takes $3 in $2 without a warning"
}

# A status that isn't looked at is told, in C and in C++.
status_is_asked_for() {
    ! "$1" -std=c11 -Werror -c -o /dev/null "-I$include" "$room/forgotten.c" 2>"$room/told" && grep -q unused-result "$room/told" &&
        ! "$2" -std=c++17 -Werror -c -o /dev/null "-I$include" -xc++ "$room/forgotten.c" 2>"$room/told" && grep -q unused-result "$room/told"
}

# In an older C++ there is one error, which says what is asked for.
old_language_is_told() {
    ! "$1" -std=c++14 -fsyntax-only "-I$include" "$room/old.cpp" 2>"$room/told" && [ "$(grep -c 'error:' "$room/told")" = 1 ] && grep -q 'C++17' "$room/told"
}

# What can't be a key isn't compiled, and the one error says why.
no_key_is_refused() {
    local line
    for line in "${no_keys[@]}"; do
        printf '#include <citrus_index.hpp>\n#include <citrus_map.hpp>\n#include <string>\nvoid keep();\nvoid keep() { %s }\n' "${line% // *}" >"$room/no_key.cpp"
        echo "$line" >"$room/told"
        ! "$1" -std=c++17 -fsyntax-only "-I$include" "$room/no_key.cpp" 2>>"$room/told" && [ "$(grep -c 'error:' "$room/told")" = 1 ] &&
            grep 'error:' "$room/told" | grep -qF "${line#* // }" || return
    done
}

pair() {
    hash "$1" "$2" 2>/dev/null || { echo "left out: $1 and $2" && return; }
    in_all_forms "$1" 'c99 c11 c17 c2x' alone.c
    in_all_forms "$2" 'c++17 c++20 c++2b' alone.cpp -Wzero-as-null-pointer-constant -Wextra-semi
    in_all_forms "$2" 'c++11 c++17' alone.c -Wzero-as-null-pointer-constant -xc++
    status_is_asked_for "$1" "$2"
    told $? "$1 and $2 tell of a status that isn't looked at"
    old_language_is_told "$2"
    told $? "$2 has one error in C++14"
    no_key_is_refused "$2"
    told $? "$2 takes no key that doesn't fit, and says why"
}

pair gcc g++
pair clang clang++
exit $failed
