# Completion of bash for prolog-components(1): options that may still be given, and files.
_prolog_components() {
    local word=${COMP_WORDS[COMP_CWORD]} last=${COMP_WORDS[COMP_CWORD - 1]} it
    local options=(--order --json --loops --from-json --jobs --roots)
    COMPREPLY=()
    case $last in --jobs | --roots | =) return ;; esac
    [[ $word != = ]] || return 0
    local given=" ${COMP_WORDS[*]:1:COMP_CWORD-1} "
    if [[ $word == -* && $given != *" -- "* ]]; then
        for it in "${options[@]}"; do
            [[ $it != "$word"* || ( $it != --roots && $given == *" $it "* ) ]] || COMPREPLY+=("$it ")
        done
        compopt -o nospace 2>/dev/null
        return 0
    fi
    compopt -o filenames 2>/dev/null
    while IFS= read -r it; do COMPREPLY+=("$it"); done < <(compgen -f -- "$word")
}
complete -F _prolog_components prolog-components
