# Completion of wsc for bash. Made of docs/wsc.1 by python/run repo.manual.
# shellcheck shell=bash disable=SC2207
_wsc() {
    local word=${COMP_WORDS[COMP_CWORD]} before=${COMP_WORDS[COMP_CWORD - 1]} words=
    local commands="run plain format compile multi check exec list trace replay decouple grid stream optimize gen bench"
    COMPREPLY=()
    if [ "$COMP_CWORD" -eq 1 ]; then
        COMPREPLY=($(compgen -W "$commands help --help --version" -- "$word"))
        return
    fi
    case $before in
    help) COMPREPLY=($(compgen -W "$commands" -- "$word")); return ;;
    --workers) COMPREPLY=($(compgen -W "1 2 3 4 5 6 7 8" -- "$word")); return ;;
    --budget) COMPREPLY=($(compgen -W "" -- "$word")); return ;;
    --elements) COMPREPLY=($(compgen -W "" -- "$word")); return ;;
    --waves) COMPREPLY=($(compgen -W "" -- "$word")); return ;;
    --turns) COMPREPLY=($(compgen -W "" -- "$word")); return ;;
    esac
    case ${COMP_WORDS[1]} in
    run) words="--workers --budget --memory --stats --help" ;;
    plain) words="--turns --memory --stats --help" ;;
    format) words="--help" ;;
    compile) words="--help" ;;
    multi) words="--workers --budget --memory --stats --help" ;;
    check) words="--help" ;;
    exec) words="--workers --budget --memory --stats --help" ;;
    list) words="--help" ;;
    trace) words="--budget --help" ;;
    replay) words="--help" ;;
    decouple) words="--budget --memory --stats --help" ;;
    grid) words="--elements --waves --budget --memory --stats --help" ;;
    stream) words="--budget --memory --stats --progress --help" ;;
    optimize) words="--help" ;;
    gen) words="--help" ;;
    bench) words="--workers --budget --help" ;;
    esac
    if [[ $word == -* ]]; then
        COMPREPLY=($(compgen -W "$words" -- "$word"))
    elif [[ ${COMP_WORDS[1]} != @(gen|bench|help) ]]; then
        COMPREPLY=($(compgen -f -- "$word"))
        compopt -o filenames 2>/dev/null
    fi
}
complete -F _wsc wsc
