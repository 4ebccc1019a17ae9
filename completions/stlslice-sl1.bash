# Completions of stlslice-sl1 and stlslice-pngs for bash.

_stlslice_sl1() {
    local word=${COMP_WORDS[COMP_CWORD]} before=
    ((COMP_CWORD > 0)) && before=${COMP_WORDS[COMP_CWORD - 1]}
    # bash takes --rule=positive for three words
    if [[ $word == = ]]; then
        word=
    elif [[ $before == = ]]; then
        before=${COMP_WORDS[COMP_CWORD - 2]}
    fi
    COMPREPLY=()
    case $before in
        --printer) mapfile -t COMPREPLY < <(compgen -W 'SL1 SL1S help' -- "$word") ;;
        --rule) mapfile -t COMPREPLY < <(compgen -W 'evenodd nonzero positive' -- "$word") ;;
        --unit) mapfile -t COMPREPLY < <(compgen -W 'mm cm m inch' -- "$word") ;;
        --depth) mapfile -t COMPREPLY < <(compgen -W '1 8' -- "$word") ;;
        --workers) mapfile -t COMPREPLY < <(compgen -W '1 2 4 8 16 32 64' -- "$word") ;;
        --canvas | --pitch | --layer | --height | --exposure | --first-exposure | --fade | --material) ;;
        *)
            if [[ $word != -* ]]; then
                # --turn takes no word, or auto
                [[ $before == --turn ]] && mapfile -t COMPREPLY < <(compgen -W 'auto' -- "$word")
                compopt -o default
                return
            fi
            local options=(
                --printer
                --canvas
                --pitch
                --layer
                --height
                --turn
                --rule
                --unit
                --shells
                --mirror-x
                --mirror-y
                --depth
                --workers
                --json
                --help
            )
            [[ ${COMP_WORDS[0]} == *pngs ]] || options+=(--exposure --first-exposure --fade --material)
            # each is given at most once
            local option given=" ${COMP_WORDS[*]:1:COMP_CWORD-1} "
            for option in "${options[@]}"; do
                [[ $option == "$word"* && $given != *" $option "* ]] && COMPREPLY+=("$option")
            done
            ;;
    esac
}

complete -F _stlslice_sl1 stlslice-sl1 stlslice-pngs
