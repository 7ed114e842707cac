# Completion of bash for prolog-calls(1): options that aren't given yet, and Prolog files.
_prolog_calls() {
    local word=${COMP_WORDS[COMP_CWORD]} last=${COMP_WORDS[COMP_CWORD - 1]} it
    local options=(--roots --unreached --undefined --dot --condensed)
    [[ ${COMP_WORDS[0]} != *-swi ]] || options+=(--libraries --no-run --expand)
    COMPREPLY=()
    case $last in --roots | =) return ;; esac
    [[ $word != = ]] || return 0
    local given=" ${COMP_WORDS[*]:1:COMP_CWORD-1} "
    if [[ $word == -* && $given != *" -- "* ]]; then
        for it in "${options[@]}"; do
            [[ $it != "$word"* || $given == *" $it "* ]] || COMPREPLY+=("$it ")
        done
        compopt -o nospace 2>/dev/null
        return 0
    fi
    compopt -o filenames 2>/dev/null
    while IFS= read -r it; do COMPREPLY+=("$it"); done < <(compgen -f -X '!*.pl' -- "$word"; compgen -d -- "$word")
}
complete -F _prolog_calls prolog-calls prolog-calls-swi
