# Completes the words of causal_tool in bash: source this file, or put it into a folder that bash-completion reads.
_causal_tool() {
    local word=${COMP_WORDS[COMP_CWORD]} before=${COMP_WORDS[COMP_CWORD - 1]} offered=
    case $before in
    --faults | --workers | --entries | --around | --map) return ;;
    --only) offered=breach ;;
    esac
    if [[ $offered ]]; then
        :
    elif ((COMP_CWORD == 1)); then
        offered="audit explain replays draw merge run help --help --version"
    else
        case ${COMP_WORDS[1]} in
        audit) offered="--faults --workers --entries --until-breach --json --help" ;;
        explain) offered="--faults --workers --entries --json --map --help" ;;
        replays) offered="--workers --entries --json --help" ;;
        draw) offered="--faults --workers --entries --around --only --help" ;;
        merge) offered="--workers --entries --map --help" ;;
        run) offered="--help" ;;
        help) ((COMP_CWORD == 2)) && offered="audit explain replays draw merge run help" ;;
        esac
    fi
    mapfile -t COMPREPLY < <(compgen -W "$offered" -- "$word")
}
complete -o default -F _causal_tool causal_tool
