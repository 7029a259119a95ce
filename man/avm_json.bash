# Completions of avm_json for bash.
_avm_json() {
    local word=${COMP_WORDS[COMP_CWORD]}
    if ((COMP_CWORD == 1)); then
        mapfile -t COMPREPLY < <(compgen -W 'lines show run trace page' -- "$word")
    elif [[ ${COMP_WORDS[1]} == trace || ${COMP_WORDS[1]} == page ]]; then
        mapfile -t COMPREPLY < <(compgen -W '--entry' -- "$word")
    fi
}
complete -F _avm_json avm_json
