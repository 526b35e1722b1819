# The completion of acfind for bash: its commands and the match kinds. Patterns are up to the user.
_acfind() {
    local words=""
    case $COMP_CWORD.${COMP_WORDS[1]} in
    1.*) words='find overlap replace --help --version' ;;
    2.find) words='leftmost-first leftmost-longest standard' ;;
    3.find) words='-i' ;;
    esac
    mapfile -t COMPREPLY < <(compgen -W "$words" -- "${COMP_WORDS[COMP_CWORD]}")
}
complete -F _acfind acfind
