# bash completion of egrynnol: its subcommands and their options, as its own help names them, and files
_egrynnol()
{
    local egrynnol=${COMP_WORDS[0]/#\~/$HOME} word=${COMP_WORDS[COMP_CWORD]} words
    COMPREPLY=()
    if [ "$COMP_CWORD" -eq 1 ]; then
        words=$("$egrynnol" --help 2>/dev/null | sed -n '/^subcommands:$/,/^$/s/^  \([a-z-]*\) .*/\1/p')
        mapfile -t COMPREPLY < <(compgen -W "$words --help --version" -- "$word")
        return
    fi
    case ${COMP_WORDS[COMP_CWORD-1]} in --tick | --timer | --filter | --number) return ;; esac
    if [[ $word == -* ]]; then
        # the usage, which is what stands before the first blank line
        words=$("$egrynnol" "${COMP_WORDS[1]}" --help 2>/dev/null | sed '/^$/q' | grep -o -e '\[--*[a-z]*' -e '| --[a-z]*' | sed 's/^\(\[\|| \)//; s/^-h$/--help/')
        mapfile -t COMPREPLY < <(compgen -W "$words" -- "$word")
    else
        mapfile -t COMPREPLY < <(compgen -f -- "$word")
    fi
}
complete -o filenames -F _egrynnol egrynnol
