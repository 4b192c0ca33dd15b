# Completion of the command wallmirror for bash. 'make install' puts it where bash-completion finds it; otherwise source this file.

# Names of files that begin with $1, but those that lie beside walls. With 'lost': walls whose journal alone is there.
_wallmirror_files()
{
    local name word=${1//\\/}
    compopt -o filenames 2>/dev/null
    while IFS= read -r name; do
        case $name in
            *.wallmirror-new | *.wallmirror-old) ;;
            *.journal) [ "$2" = lost ] && [ ! -e "${name%.journal}" ] && COMPREPLY+=("${name%.journal}") ;;
            *) if [ "$2" != lost ] || [ -d "$name" ]; then COMPREPLY+=("$name"); fi ;;
        esac
    done < <(compgen -f -- "$word")
}

_wallmirror()
{
    local word=${COMP_WORDS[COMP_CWORD]} before=${COMP_WORDS[COMP_CWORD - 1]} command=${COMP_WORDS[1]}
    local commands="new info split join fsplit fjoin back log draw export restore accept help" words=
    COMPREPLY=()
    if [ "$COMP_CWORD" -eq 1 ]; then
        words="$commands --help --version"
    elif [ "$command" = help ] || [ "$command" = --help ]; then
        words=$commands
    elif [[ $word == -* ]]; then
        case $command in
            draw) words="-o --functions --changed --reach --help" ;;
            export) words="-o --help" ;;
            *) words="--help" ;;
        esac
    elif [ "$before" = --reach ]; then
        return
    elif [[ $COMP_CWORD -eq 2 || $before == -o || $before == -- || $before == --functions || $before == --changed ||
        ${COMP_WORDS[COMP_CWORD - 2]} == --reach ]]; then
        if [ "$command" = restore ]; then
            _wallmirror_files "$word" lost
        else
            _wallmirror_files "$word"
        fi
        return
    fi
    mapfile -t COMPREPLY < <(compgen -W "$words" -- "$word")
}
complete -F _wallmirror wallmirror
