# Completion of dmk_tool's words for bash: source it, or put it where bash-completion looks for dmk_tool.
_dmk_tool() {
    local word=${COMP_WORDS[COMP_CWORD]} before=${COMP_WORDS[COMP_CWORD - 1]} at state=.make.state question=
    COMPREPLY=()
    for ((at = 1; at < COMP_CWORD; at++)); do
        case ${COMP_WORDS[at]} in
            --state) state=${COMP_WORDS[++at]} ;;
            --depth | --run | --chrome | --output | -o) ((at++)) ;;
            -*) ;;
            *) question=${question:-${COMP_WORDS[at]}} ;;
        esac
    done
    case $before,$word,$question in
        --state,* | --chrome,* | --output,* | -o,*) mapfile -t COMPREPLY < <(compgen -f -- "$word") ;;
        --depth,* | --run,*) ;;
        *,-*,targets) mapfile -t COMPREPLY < <(compgen -W '--stale --state --help' -- "$word") ;;
        *,-*,list) mapfile -t COMPREPLY < <(compgen -W '--json --state --help' -- "$word") ;;
        *,-*,compdb) mapfile -t COMPREPLY < <(compgen -W '--all --state --help' -- "$word") ;;
        *,-*,graph) mapfile -t COMPREPLY < <(compgen -W '--depth --hidden --state --help' -- "$word") ;;
        *,-*,clean) mapfile -t COMPREPLY < <(compgen -W '--dry-run --outside --targets --state --help' -- "$word") ;;
        *,-*,stats) mapfile -t COMPREPLY < <(compgen -W '--run --help' -- "$word") ;;
        *,-*,timeline) mapfile -t COMPREPLY < <(compgen -W '--output --chrome --run --help' -- "$word") ;;
        *,-*,*) mapfile -t COMPREPLY < <(compgen -W '--state --help --version' -- "$word") ;;
        *,) mapfile -t COMPREPLY < <(compgen -W 'targets commands hidden query why compdb list graph clean stats timeline help' -- "$word") ;;
        *,stats | *,timeline) mapfile -t COMPREPLY < <(compgen -f -- "$word") ;;
        *,commands | *,hidden | *,query | *,why | *,graph | *,clean)
            mapfile -t COMPREPLY < <(dmk_tool targets --state "$state" 2>/dev/null | cut -f 2- | grep "^$word") ;;
    esac
}
complete -F _dmk_tool dmk_tool
