# Completion of bash for prolog-groups(1): options that aren't given yet, and Prolog files.
_prolog_groups() {
    local word=${COMP_WORDS[COMP_CWORD]} last=${COMP_WORDS[COMP_CWORD - 1]} it
    local options=(--jobs --searches --seed --roots --order --stream --unreached --effects --loops --path --make)
    [[ ${COMP_WORDS[0]} != *-swi ]] || options+=(--libraries --no-run --expand)
    COMPREPLY=()
    case $last in --jobs | --searches | --seed | --roots | --path | --make | =) return ;; esac
    [[ $word != = ]] || return 0
    local given=" ${COMP_WORDS[*]:1:COMP_CWORD-1} "
    if [[ $word == -* && $given != *" -- "* ]]; then
        for it in "${options[@]}"; do
            [[ $it != "$word"* || $given == *" $it "* ]] || COMPREPLY+=("$it ")
        done
        compopt -o nospace 2>/dev/null
        return 0
    fi
    compopt -o filenames 2>/dev/null
    while IFS= read -r it; do COMPREPLY+=("$it"); done < <(compgen -f -X '!*.pl' -- "$word"; compgen -d -- "$word")
}
complete -F _prolog_groups prolog-groups prolog-groups-swi
