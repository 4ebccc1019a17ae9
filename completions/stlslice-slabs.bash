# Completions of stlslice-slabs for bash.

_stlslice_slabs() {
    local word=${COMP_WORDS[COMP_CWORD]} before=
    ((COMP_CWORD > 0)) && before=${COMP_WORDS[COMP_CWORD - 1]}
    COMPREPLY=()
    case $before in
        -r) mapfile -t COMPREPLY < <(compgen -W 'evenodd nonzero positive' -- "$word") ;;
        -u) mapfile -t COMPREPLY < <(compgen -W 'mm inch' -- "$word") ;;
        --depth) mapfile -t COMPREPLY < <(compgen -W '8 1' -- "$word") ;;
        -S) mapfile -t COMPREPLY < <(compgen -A hostname -- "$word") ;;
        -p | -l | -n | -j) ;;
        -P) compopt -o default ;;
        *)
            if [[ $word != -* ]]; then
                compopt -o default
                return
            fi
            local options=(-p -l -n -r -u -j -S -P --png --depth --mirror-x --mirror-y --words --help)
            # each is given at most once
            local option given=" ${COMP_WORDS[*]:1:COMP_CWORD-1} "
            for option in "${options[@]}"; do
                [[ $option == "$word"* && $given != *" $option "* ]] && COMPREPLY+=("$option")
            done
            ;;
    esac
}

complete -F _stlslice_slabs stlslice-slabs
