# Completions of avm for bash.
_avm() {
    local word=${COMP_WORDS[COMP_CWORD]}
    if ((COMP_CWORD == 1)); then
        mapfile -t COMPREPLY < <(compgen -W 'asm dis check propose replay debug state' -- "$word")
        return
    fi
    case ${COMP_WORDS[1]} in
        propose) mapfile -t COMPREPLY < <(compgen -W '--workers' -- "$word") ;;
        debug) mapfile -t COMPREPLY < <(compgen -W '--entry --steps' -- "$word") ;;
        state) mapfile -t COMPREPLY < <(compgen -W '--at' -- "$word") ;;
    esac
}
complete -F _avm avm
