# For `citrus` to read in: which words are a command, as docs/FORMATS.md has it, and what is wrong with others. The program says whether they
# are one too; here nothing is built to hear it.
# shellcheck shell=bash disable=SC2034,SC2154

usage='usage: citrus run|check|load|watch|hash'

# Whether these words are a command. Where they aren't, `mistake` says why not.
is_command() {
    local word=${1:-} slots='' schedule='' waiter='' cookies='' numbers=() LC_ALL=C
    mistake=''
    case $word in
        run | check | load | watch | hash) read_arguments "${@:2}" && takes_options && takes_numbers ;;
        --slots* | --schedule* | --waiter* | --cookies*) fails "the command stands before its options, and $(shown "$word") is an option" ;;
        -*) unknown_option "$word" ;;
        *) [ $# -gt 0 ] || fails 'no command is given' || return
            fails "unknown command $(shown "$word")$(nearest "$word" run check load watch hash)" ;;
    esac
}

fails() {
    mistake=$1
    return 1
}

# A word as a shell would read it, or its beginning.
shown() { printf '%q' "${1:0:60}"; }

# Options with their values, each at most once, and numbers.
read_arguments() {
    local option value
    while [ $# -gt 0 ]; do
        option=$1 value=''
        case $1 in
            --cookies) shift ;;
            --slots | --schedule | --waiter)
                [ $# -ge 2 ] || fails "$1 has no value" || return
                value=$2
                shift 2
                ;;
            --slots=* | --schedule=* | --waiter=*) option=${1%%=*} value=${1#*=} && shift ;;
            -*) unknown_option "$1" || return ;;
            *)
                is_number "$1" || no_number "$1" || return
                numbers+=("$1") && shift && continue
                ;;
        esac
        take_option "$option" "$value" || return
    done
}

# Keeps an option's value, where the option has none yet and this is one of its values.
take_option() {
    local -n kept=${1#--}
    [ -z "$kept" ] || fails "$1 stands twice" || return
    case $1:$2 in
        --cookies:) kept=yes && return ;;
        --waiter:eer | --waiter:d | --waiter:deer) ;;
        --waiter:*) fails "--waiter takes eer, d or deer, not $(shown "$2")" || return ;;
        --slots:*) is_number "$2" && at_most 1 "$2" && at_most "$2" 2095892 || fails "--slots takes a number from 1 to 2095892, not $(shown "$2")" || return ;;
        --schedule:*) is_number "$2" || fails "--schedule takes a number from 0 to 18446744073709551615, not $(shown "$2")" || return ;;
    esac
    kept=$2
}

no_number() {
    case $1 in
        '' | *[!0-9]*) fails "$(shown "$1") is neither an option nor a number; texts are read from standard input" ;;
        0*) fails "$(shown "$1") is no number: it begins with a zero" ;;
        *) fails "$(shown "$1") is more than 18446744073709551615" ;;
    esac
}

unknown_option() {
    case $1 in
        --help | -h | --version | --unproved) fails "$1 stands alone, or before all other words" ;;
        --cookies=*) fails '--cookies takes no value' ;;
        *) fails "unknown option $(shown "$1")$(nearest "${1%%=*}" --slots --schedule --waiter --cookies --unproved --help --version)" ;;
    esac
}

# Whether the command takes the options that are given.
takes_options() {
    local option taken=''
    case $word in
        run) taken='slots schedule waiter cookies' ;;
        check) taken='slots' ;;
        load) taken='waiter' ;;
        watch) taken='slots waiter' ;;
    esac
    for option in slots schedule waiter cookies; do
        [ -z "${!option}" ] || [[ " $taken " == *" $option "* ]] || fails "$word takes no --$option" || return
    done
    [ -z "$schedule" ] || [ -z "$waiter$cookies" ] || fails 'neither --waiter nor --cookies goes with --schedule, which runs scripts in one thread'
}

# Whether they are as many numbers as the command takes, and in their ranges.
takes_numbers() {
    case $word:${#numbers[@]} in
        run:0 | check:0 | hash:0) ;;
        watch:2) at_most "${numbers[@]}" || fails "LOW is ${numbers[0]} and HIGH is ${numbers[1]}: LOW is at most HIGH" ;;
        load:3)
            at_most 1 "${numbers[1]}" && at_most "${numbers[1]}" 64 || fails "SCRIPTS is a number from 1 to 64, not ${numbers[1]}" || return
            is_load "${numbers[@]:1}" || fails "SCRIPTS times OPS is at most 1048576, and ${numbers[1]} times ${numbers[2]} is more"
            ;;
        watch:*) fails "watch takes two numbers, LOW and HIGH, not ${#numbers[@]}" ;;
        load:*) fails "load takes three numbers, NUMBER, SCRIPTS and OPS, not ${#numbers[@]}" ;;
        *) fails "$word takes no number, and ${numbers[0]} is given" ;;
    esac
}

# A decimal number of 64 bits, without a zero before it.
is_number() { [[ $1 =~ ^(0|[1-9][0-9]{0,19})$ ]] && at_most "$1" 18446744073709551615; }

# Of two such numbers, or longer ones, whether the first isn't above the second.
at_most() { [ ${#1} -lt ${#2} ] || { [ ${#1} = ${#2} ] && [[ ! $1 > $2 ]]; }; }

# A million operations in all.
is_load() { at_most "$2" 1048576 && [ $(($1 * $2)) -le 1048576 ]; }

# Asks for the word among these that is at most two letters away, or begins with what was written.
nearest() {
    local word=$1 other steps least=3 found=''
    [ ${#word} -le 20 ] || return 0
    for other in "${@:2}"; do
        steps=$(letters_between "$word" "$other")
        [ ${#word} -lt 4 ] || [[ $other != "$word"* ]] || steps=1
        [ "$steps" -ge "$least" ] || least=$steps found=$other
    done
    [ -z "$found" ] || printf '; did you mean %s?' "$found"
}

# How many letters have to be put in, taken out or changed to make one word of the other.
letters_between() {
    local one=$1 other=$2 i j steps before row=()
    for ((j = 0; j <= ${#other}; j++)); do row[j]=$j; done
    for ((i = 1; i <= ${#one}; i++)); do
        before=$((i - 1)) row[0]=$i
        for ((j = 1; j <= ${#other}; j++)); do
            steps=$before before=${row[j]}
            [ "${one:i-1:1}" = "${other:j-1:1}" ] || steps=$((steps + 1))
            [ $((row[j] + 1)) -ge "$steps" ] || steps=$((row[j] + 1))
            [ $((row[j - 1] + 1)) -ge "$steps" ] || steps=$((row[j - 1] + 1))
            row[j]=$steps
        done
    done
    printf '%s' "${row[-1]}"
}
