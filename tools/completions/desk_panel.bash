# Completion of desk_panel's words in bash: source it, or copy it to /usr/share/bash-completion/completions/desk_panel.
_desk_panel() {
    local word=${COMP_WORDS[COMP_CWORD]} before=${COMP_WORDS[COMP_CWORD-1]} at=0 i
    for ((i = 2; i < COMP_CWORD; i++)); do
        case ${COMP_WORDS[i]} in
            --workers) i=$((i + 1)) ;;
            --*) ;;
            *) at=$((at + 1)) ;;
        esac
    done
    if [ "$COMP_CWORD" -eq 1 ]; then
        COMPREPLY=($(compgen -W "panel" -- "$word"))
    elif [ "$before" = --workers ]; then
        COMPREPLY=($(compgen -W "1 2 4 8 16" -- "$word"))
    elif [[ $word == -* ]]; then
        COMPREPLY=($(compgen -W "--workers" -- "$word"))
    elif [ "$at" -eq 0 ]; then
        compopt -o filenames 2>/dev/null
        COMPREPLY=($(compgen -d -- "$word"))
    elif [ "$at" -le 5 ]; then
        compopt -o filenames 2>/dev/null
        COMPREPLY=($(compgen -f -- "$word"))
    fi
}
complete -F _desk_panel desk_panel
