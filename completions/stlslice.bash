# Completions of stlslice for bash.

_stlslice() {
    local word=${COMP_WORDS[COMP_CWORD]} before=
    ((COMP_CWORD > 0)) && before=${COMP_WORDS[COMP_CWORD - 1]}
    # bash takes --rule=positive for three words
    if [[ $word == = ]]; then
        word=
    elif [[ $before == = ]]; then
        before=${COMP_WORDS[COMP_CWORD - 2]}
    fi
    COMPREPLY=()
    case $before in
        --rule) mapfile -t COMPREPLY < <(compgen -W 'evenodd nonzero positive' -- "$word") ;;
        --unit) mapfile -t COMPREPLY < <(compgen -W 'mm inch' -- "$word") ;;
        --depth) mapfile -t COMPREPLY < <(compgen -W '8 1' -- "$word") ;;
        --workers) mapfile -t COMPREPLY < <(compgen -W '1 2 4 8 16 32 64' -- "$word") ;;
        --pitch | --layer | --grid | --probe) ;;
        *'<'* | *'>'*) compopt -o default ;;
        *)
            local options=(
                --pitch
                --layer
                --rule
                --unit
                --grid
                --workers
                --png
                --depth
                --mirror-x
                --mirror-y
                --report
                --box
                --probe
                --progress
                --help
                --version
            )
            # each is given at most once
            local option given=" ${COMP_WORDS[*]:1:COMP_CWORD-1} "
            for option in "${options[@]}"; do
                [[ $option == "$word"* && $given != *" $option "* ]] && COMPREPLY+=("$option")
            done
            # its numbers may be negative, which only an equals sign lets in
            if [[ ${COMPREPLY[*]} == --grid ]]; then
                COMPREPLY=(--grid=)
                compopt -o nospace
            fi
            ;;
    esac
}

complete -F _stlslice stlslice
