# Completions of stlslice-page for bash.

_stlslice_page() {
    local word=${COMP_WORDS[COMP_CWORD]} before=
    ((COMP_CWORD > 0)) && before=${COMP_WORDS[COMP_CWORD - 1]}
    # bash takes --rule=positive for three words
    if [[ $word == = ]]; then
        word=
    elif [[ $before == = ]]; then
        before=${COMP_WORDS[COMP_CWORD - 2]}
    fi
    COMPREPLY=()
    case $before in
        --rule) mapfile -t COMPREPLY < <(compgen -W 'positive nonzero evenodd' -- "$word") ;;
        --unit) mapfile -t COMPREPLY < <(compgen -W 'mm cm m inch' -- "$word") ;;
        --workers) mapfile -t COMPREPLY < <(compgen -W '1 2 4 8 16 32 64' -- "$word") ;;
        --pitch | --layer | --canvas | --title) ;;
        *)
            if [[ $word != -* ]]; then
                compopt -o default
                return
            fi
            local options=(--pitch --layer --rule --unit --canvas --title --workers --json --help)
            # each is given at most once
            local option given=" ${COMP_WORDS[*]:1:COMP_CWORD-1} "
            for option in "${options[@]}"; do
                [[ $option == "$word"* && $given != *" $option "* ]] && COMPREPLY+=("$option")
            done
            ;;
    esac
}

complete -F _stlslice_page stlslice-page
