# The completion of acredact for bash: its options, the values of those that have some, and names of files. bin/completions writes this.
_acredact() {
    local word=${COMP_WORDS[COMP_CWORD]} option=${COMP_WORDS[COMP_CWORD - 1]} words="" joined=""
    # bash takes `--kind=first` for three words.
    if [[ $word == = ]]; then
        word="" joined=yes
    elif [[ $option == = ]]; then
        option=${COMP_WORDS[COMP_CWORD - 2]} joined=yes
    fi
    case $option in
    --kind) words='cover leftmost-first leftmost-longest standard' ;;
    -e | --pattern | --env | --forms | --after | --max-line | --with) return ;;
    esac
    [[ $words || $word != -* ]] || words='-e --pattern -f --file -t --table --env --env-file --whole -i --ignore-case -w --word --forms --crlf --allow-empty --rules --after --max-line --with --pseudonym --kind --strict --output --in-place --keep-mode --overwrite --count --summary --check --help --version --'
    mapfile -t COMPREPLY < <(compgen -W "$words" -- "$word")
}
complete -o default -F _acredact acredact
