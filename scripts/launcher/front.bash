# What the wrapper wsc does with its words before the program gets them, and what it says beside the program's answer.
# Nothing of it is part of what is proved, and nothing of it changes an answer or a status of the program.
# shellcheck shell=bash disable=SC2154

# commands, options, options_of, ranges_of
. "$top/scripts/launcher/words.bash"

is_command() {
    [ -n "${options_of[${1:-none}]+x}" ]
}

reads_none() {
    [ "$1" = gen ] || [ "$1" = bench ]
}

# Prints a screen of help: that of a command, or the one of all.
help_of() {
    local line shows=
    while IFS= read -r line; do
        case $line in
        "%$1") shows=1 ;;
        %*) [ -z "$shows" ] || break ;;
        *) [ -z "$shows" ] || printf '%s\n' "$line" ;;
        esac
    done <"$top/scripts/launcher/help.txt"
}

# Answers words that ask for help or for the version, and ends; else comes back.
ask() {
    local word
    case ${1-} in
    -h | --help | help)
        if [ $# -eq 1 ] || is_command "$2"; then
            help_of "${2:-wsc}"
            exit
        fi
        echo "wsc: there is no command \`$2\`$(like "$2" "${commands[@]}")" >&2
        exit 1
        ;;
    -V | --version)
        version
        exit
        ;;
    esac
    is_command "${1-}" || return 0
    for word in "${@:2}"; do
        case $word in
        --) return ;;
        -h | --help)
            help_of "$1"
            exit
            ;;
        esac
    done
}

# Parts the words of the program from the files.
part() {
    words=("$1") files=()
    shift
    while [ $# -gt 0 ]; do
        case $1 in
        --)
            [ $# -gt 1 ] || words+=("$1")
            files+=("${@:2}")
            return
            ;;
        --memory | --stats | --progress | --*=*) words+=("$1") ;;
        --*)
            words+=("${@:1:2}")
            [ $# -eq 1 ] || shift
            ;;
        -?*) words+=("$1") ;;
        *) files+=("$1") ;;
        esac
        shift
    done
}

# Makes FILE standard input. It is opened once, since the other end of a named pipe takes a second time for its end.
open_file() {
    local reason
    [ "$1" != - ] || return 0
    if [ -d "$1" ]; then
        reason="Is a directory"
    elif { exec 3<"$1"; } 2>/dev/null; then
        exec <&3 3<&-
        return
    else
        reason=$({ exec 3<"$1"; } 2>&1) || true
    fi
    echo "wsc: $1: ${reason##*: }" >&2
    exit 4
}

# Says where the text on standard input is itself a refusal or a usage line, of which the program would only say where
# it isn't a text of its own. A file is opened once more for that; of a pipe the first bytes are read, and given on.
peek() {
    local LC_ALL=C head='' rest='' end='' nul=''
    if [ -f /dev/stdin ]; then
        IFS= read -r -n 300 head 2>/dev/null </dev/stdin || true
        told "$head"
    elif [ -p /dev/stdin ]; then
        IFS= read -r -d '' -n 8 head || end=1
        [ -n "$end" ] || [ ${#head} -eq 8 ] || nul=1
        case $head in
        "refused "* | "usage: "*)
            ! IFS= read -r -n 300 rest || rest+=$'\n'
            told "$head${rest%$'\n'}"
            ;;
        esac
        exec < <(
            printf %s "$head"
            [ -z "$nul" ] || printf '\0'
            printf %s "$rest"
            [ -n "$end" ] || exec cat
        )
    fi
}

told() {
    case $1 in
    "refused "* | "usage: "*) echo "wsc ${words[0]}: the text is itself an answer: $1" >&2 ;;
    esac
}

# Passes an answer on, and says its line on the terminal too where it is a refusal.
pass() {
    local line
    if ! IFS= read -r line; then
        printf %s "$line"
        return
    fi
    case $line in
    "refused "*) echo "wsc ${words[0]}: $line" >&2 ;;
    esac
    exec 2>/dev/null
    printf '%s\n' "$line" && exec cat
}

# Runs the program where its answer goes to a file or a pipe and standard error to a terminal. A signal goes on to the
# program, and this script then ends by it too. It ends after the answer has been passed on. Where passing it on fails
# the status is that of a fault in writing.
watch() {
    local child='' passing caught='' ends=0 passed=0
    trap 'forward INT' INT
    trap 'forward TERM' TERM
    trap 'forward HUP' HUP
    exec 3> >(pass)
    passing=$!
    # What a script starts beside itself would ignore SIGINT, and read nothing.
    (
        trap - INT QUIT TERM HUP
        exec 1>&3 3>&-
        exec "$program" "${handed[@]}"
    ) <&0 &
    child=$!
    exec 3>&- >&-
    [ -z "$caught" ] || forward "$caught"
    until wait_for "$child"; do :; done
    ends=$status
    until wait_for "$passing"; do :; done
    passed=$status
    if [ -n "$caught" ]; then
        trap - "$caught"
        kill -"$caught" $$
    fi
    [ "$ends" -ne 0 ] || [ "$passed" -eq 0 ] || exit 5
    exit "$ends"
}

forward() {
    caught=$1
    [ -z "$child" ] || kill -"$1" "$child" 2>/dev/null || true
}

# Waits for a child, whose status it keeps; fails where a signal came first.
wait_for() {
    status=0
    wait "$1" 2>/dev/null || status=$?
    ! kill -0 "$1" 2>/dev/null
}

# Runs the program with words that are none of its lines, and says which is wrong.
refuse() {
    local status=0
    "$program" "$@" || status=$?
    [ "$status" -ne 1 ] || echo "wsc: $fault (see wsc --help)" >&2
    exit "$status"
}

# Hands these words to the program, and FILE as standard input. The programs of stream and optimize get them without that word.
hand() {
    fault=
    words=("$@") files=()
    if is_command "${1-}" && ! reads_none "$1"; then
        part "$@"
    fi
    find_fault
    [ -z "$fault" ] || refuse "$@"
    handed=("${words[@]}")
    [ ${#files[@]} -eq 0 ] || open_file "${files[0]}"
    case $1 in
    gen | bench) ;;
    stream)
        hand_to_stream
        make_assembly
        ;;
    optimize)
        handed=("${words[@]:1}")
        peek
        ;;
    *) peek ;;
    esac
    if [ -t 2 ] && [ ! -t 1 ]; then
        watch
    fi
    exec "$program" "${handed[@]}"
}

# The words of the program of stream: of these --progress is the first. It is there too where standard error is a terminal
# and standard output none.
hand_to_stream() {
    local word progress=
    [ ! -t 2 ] || [ -t 1 ] || progress=--progress
    handed=()
    for word in "${words[@]:1}"; do
        case $word in
        --progress) progress=$word ;;
        *) handed+=("$word") ;;
        esac
    done
    handed=(${progress:+"$progress"} "${handed[@]}")
}

# Makes an assembly standard input, where a job is: what compile prints of it, and its input section. A refusal of compile
# is the answer. The text is kept in a file that has no name any more.
make_assembly() {
    local streamer=$program status=0 text
    if [ ! -f /dev/stdin ]; then
        text=$(mktemp)
        # Where reading fails the program finds it too, and answers.
        cat >"$text" 2>/dev/null || { rm "$text" && return; }
        exec <"$text"
        rm "$text"
    fi
    ! is_assembly || return 0
    choose wsc
    find_program
    text=$(mktemp)
    "$program" compile </dev/stdin >"$text" || status=$?
    [ "$status" -ne 0 ] || LC_ALL=C sed -n $'/^%input\\r\\?$/,$p' </dev/stdin >>"$text"
    exec <"$text"
    rm "$text"
    program=$streamer
    [ "$status" -ne 0 ] || return 0
    cat || status=5
    exit "$status"
}

# Whether the first line of the text that is neither blank nor a comment is the head of an assembly.
is_assembly() {
    LC_ALL=C grep -a -m 1 -v -x '[[:space:]]*\(#.*\)\?' </dev/stdin 2>/dev/null |
        LC_ALL=C grep -a -q '^[[:blank:]]*wavescalar\([[:space:]]\|$\)'
}

# Finds what is wrong with the words, as far as that can be seen; then fault says it.
find_fault() {
    local command=${words[0]-} word value seen=' ' numbers=()
    if ! is_command "$command"; then
        fault_of_command "$command"
        return
    fi
    set -- "${words[@]:1}"
    while [ $# -gt 0 ] && [ -z "$fault" ]; do
        word=${1%%=*}
        value=${1#"$word"}
        case $word in
        --memory | --stats | --progress) fault_of_flag ;;
        --?*)
            if [ -n "$value" ]; then
                value=${value#=}
            else
                value=${2-}
                [ $# -eq 1 ] || shift
            fi
            fault_of_option
            ;;
        -*) fault="there is no option \`$word\`$(like "$word" "${options[@]/#/--}")" ;;
        *) numbers+=("$1") ;;
        esac
        seen+="$word "
        shift
    done
    [ -n "$fault" ] || fault_of_rest
}

fault_of_command() {
    case $1 in
    '') fault="a command is missing, which is the first word" ;;
    -*) fault="the first word is the command, and options stand behind it" ;;
    *)
        if [ -e "$1" ]; then
            fault="a command is missing before the file: wsc run $1"
        else
            fault="there is no command \`$1\`$(like "$1" "${commands[@]}")"
        fi
        ;;
    esac
}

# Whether the command has the option, and it stands once.
fault_of_place() {
    local name=${word#--}
    if [[ " ${options[*]} " != *" $name "* ]]; then
        fault="there is no option \`$word\`$(like "$word" "${options[@]/#/--}")"
    elif [[ " ${options_of[$command]} " != *" $name "* ]]; then
        fault="\`$command\` has no option $word$(have "$name")"
    elif [[ $seen == *" $word "* ]]; then
        fault="$word stands twice"
    fi
}

fault_of_flag() {
    fault_of_place
    [ -n "$fault" ] || [ -z "$value" ] || fault="$word has no value"
}

fault_of_option() {
    local range
    fault_of_place
    [ -z "$fault" ] || return 0
    range=${ranges_of[$command.${word#--}]}
    if [ -z "$value" ]; then
        fault="behind $word stands a number from ${range/ / to }"
    elif ! in_range "$value" "$range"; then
        fault="$word: \`$value\` isn't a number from ${range/ / to }"
    fi
}

fault_of_rest() {
    if ! reads_none "$command"; then
        [ ${#files[@]} -lt 2 ] || fault="\`$command\` takes one file, and \`${files[1]}\` is one more"
    elif [ ${#numbers[@]} -ne 1 ]; then
        fault="behind \`$command\` stands one number, that of the generated job"
    elif ! in_range "${numbers[0]}" "${ranges_of[$command.NUMBER]}"; then
        fault="\`${numbers[0]}\` isn't a number from ${ranges_of[$command.NUMBER]/ / to }"
    fi
}

in_range() {
    local number=$1
    [[ $number && $number != *[!0-9]* ]] || return 1
    number=${number#"${number%%[!0]*}"}
    at_most "${2% *}" "${number:-0}" && at_most "${number:-0}" "${2#* }"
}

# Compares numbers that a shell may not reach, without zeros in front: the greater has more digits, or stands behind.
at_most() {
    local LC_ALL=C
    [ ${#1} -lt ${#2} ] || { [ ${#1} -eq ${#2} ] && ! [[ $1 > $2 ]]; }
}

# Which commands have an option.
have() {
    local command found=()
    for command in "${commands[@]}"; do
        [[ " ${options_of[$command]} " != *" $1 "* ]] || found+=("$command")
    done
    printf '; %s ha%s it' "$(join "${found[@]}")" "$([ ${#found[@]} -gt 1 ] && echo ve || echo s)"
}

join() {
    local IFS=,
    local all="$*"
    printf %s "${all//,/, }"
}

# The first of these words that differs from this one in a letter, or that it begins, as a question.
like() {
    local word=$1 one at
    shift
    for one; do
        for ((at = 0; at <= ${#one}; at++)); do
            # shellcheck disable=SC2053
            if [[ $word == "${one:0:at}"?"${one:at}" || $word == "${one:0:at}"?"${one:at+1}" ||
                $word == "${one:0:at}${one:at+1}" ||
                $word == "${one:0:at}${one:at+1:1}${one:at:1}${one:at+2}" ]]; then
                echo "; perhaps \`$one\`?"
                return
            fi
        done
    done
    for one; do
        if [[ ${#word} -gt 2 && $one == "$word"* ]]; then
            echo "; perhaps \`$one\`?"
            return
        fi
    done
}
