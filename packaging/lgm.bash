# Completion of the arguments of lgm in bash.
_lgm() {
    local choices word=${COMP_WORDS[COMP_CWORD]}
    case $COMP_CWORD,${COMP_WORDS[COMP_CWORD - 1]} in
        1,*) choices='run live --help --version' ;;
        *,--workers) choices='1 2 4 8 16 32 64' ;;
        *,--chain | *,--known) choices='' ;;
        *) choices='--chain --known --workers --help' ;;
    esac
    mapfile -t COMPREPLY < <(compgen -W "$choices" -- "$word")
}
complete -F _lgm lgm
