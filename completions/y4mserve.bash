# Completion of y4mserve's words for bash. Source this file, or put it as `y4mserve` into
# ~/.local/share/bash-completion/completions.

_y4mserve() {
    local current=$2 previous=$3 command="" at words
    for ((at = 1; at < COMP_CWORD; at++)); do
        case ${COMP_WORDS[at]} in
            filter | replay | serve | help) command=${COMP_WORDS[at]} && break ;;
        esac
    done
    case $command in
        "") words="filter replay serve help -h --help -V --version" ;;
        help) words="filter replay serve help" ;;
        replay) words="-h --help" ;;
        filter) words="--band --threads -q --quiet -h --help" ;;
        serve) words="--workers --band --quantum --journal --control --moment --trace -q --quiet -h --help" ;;
    esac
    if [[ ($command == filter || $command == serve) && $previous == --band ]]; then
        words="2 4 8 16 32 64 128"
    elif [[ $command == filter && $previous == --threads ]]; then
        words="1 2"
    elif [[ $command == serve && $previous == --workers ]]; then
        words="1 2 4 8 16"
    elif [[ $command == serve && $previous == --quantum ]]; then
        words="1 2 4 8 16 32 64"
    elif [[ $command == serve && $previous == --journal ]]; then
        words="4096 65536 1048576"
    elif [[ $command == serve && ($previous == --control || $previous == --trace) ]]; then
        compopt -o filenames
        mapfile -t COMPREPLY < <(compgen -f -- "$current")
        return
    elif [[ $command == serve && $previous == --moment ]]; then
        words="10 20 30 40 100 1000"
    elif [[ $command == filter && $current != -* ]]; then
        # Only the operation behind the last + is completed.
        local before=${current%"${current##*+}"}
        compopt -o nospace
        mapfile -t COMPREPLY < <(compgen -P "$before" -W "invert thresh: clamp: hflip vflip crop: blur:" -- "${current##*+}")
        return
    fi
    mapfile -t COMPREPLY < <(compgen -W "$words" -- "$current")
}

complete -F _y4mserve y4mserve
