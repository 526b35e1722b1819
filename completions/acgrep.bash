# The completion of acgrep for bash: its options, the values of those that have some, and names of files. bin/completions writes this.
_acgrep() {
    local word=${COMP_WORDS[COMP_CWORD]} option=${COMP_WORDS[COMP_CWORD - 1]} words="" joined=""
    # bash takes `--kind=first` for three words.
    if [[ $word == = ]]; then
        word="" joined=yes
    elif [[ $option == = ]]; then
        option=${COMP_WORDS[COMP_CWORD - 2]} joined=yes
    fi
    case $option in
    --kind) words='leftmost-first leftmost-longest standard' ;;
    --color) [[ ! $joined ]] || words='always auto never' ;;
    -d | --directories) words='read recurse skip' ;;
    -D | --devices) words='read skip' ;;
    --binary-files) words='binary text without-match' ;;
    -e | --regexp | --max-line | -m | --max-count | --format | --offset | --first-line | --label | -A | --after-context | -B | --before-context | -C | --context | --group-separator | --include | --exclude | --exclude-dir) return ;;
    esac
    [[ $words || $word != -* ]] || words='-e --regexp -f --file -i -y --ignore-case --no-ignore-case -v --invert-match -w --word-regexp -x --line-regexp --kind --rules --max-line -m --max-count -c --count -l --files-with-matches -L --files-without-match -q --quiet --silent -o --only-matching --json --format --counts -n --line-number -b --byte-offset --offset --first-line -H --with-filename -h --no-filename --label -Z --null -z --null-data -T --initial-tab -A --after-context -B --before-context -C --context --group-separator --no-group-separator --color -r --recursive -R --dereference-recursive -d --directories -D --devices --include --exclude --exclude-from --exclude-dir -s --no-messages --no-match-ok -a --text -I --binary-files -F -U -u --fixed-strings --binary --unix-byte-offsets --line-buffered --help -V --version --'
    mapfile -t COMPREPLY < <(compgen -W "$words" -- "$word")
}
complete -o default -F _acgrep acgrep
