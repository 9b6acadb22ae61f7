# Completion of scatterflock for bash: share/bash-completion/completions/scatterflock
_scatterflock() {
    local word=${COMP_WORDS[COMP_CWORD]}
    case $word in
        -*) COMPREPLY=($(compgen -W '--json --page --words --each --first --wide --times --bytes --bare --edition=1 --edition=2 --help --version' -- "$word")) ;;
        *)
            if [[ " ${COMP_WORDS[*]:1:COMP_CWORD-1} " =~ \ (solve|check|times|words|smtlib|edit|day|audit|pack|unpack|trace|replay)\  ]]; then
                COMPREPLY=($(compgen -f -- "$word"))
            else
                COMPREPLY=($(compgen -W 'solve check times words smtlib edit day audit pack unpack trace replay help' -- "$word"))
            fi ;;
    esac
}
complete -o filenames -F _scatterflock scatterflock
