# Completion of bodhranhaze in bash: options and programs, then each program's own words, and files.
_bodhranhaze() {
    local word=${COMP_WORDS[COMP_CWORD]} program='' words='' i
    local programs='report ask edit map off bench marks merge class table pack'
    for ((i = 1; i < COMP_CWORD; i++)); do
        case ${COMP_WORDS[i]} in
            -o | --output) i=$((i + 1)) ;;
            -*) ;;
            *) program=${COMP_WORDS[i]} && break ;;
        esac
    done
    case $program in
        '') [[ $i -gt $COMP_CWORD ]] || words="--refusals --output --help --version $programs" ;;
        ask) words='--formula judge why verdict counts pierces enclosed mask sign record listing clean' ;;
        edit) words='move far reverse' ;;
        off) words='--write' ;;
        bench) words='one two lecturer' ;;
        merge) words='--reports' ;;
        class | table | pack) words='--names --progress' ;;
    esac
    [[ -z $program ]] || words+=' --help --version'
    mapfile -t COMPREPLY < <(compgen -W "$words" -- "$word")
    # A name of a file is completed where a program has it, and behind --output.
    [[ -z $program && $i -le $COMP_CWORD ]] || mapfile -t -O ${#COMPREPLY[@]} COMPREPLY < <(compgen -f -- "$word")
    compopt -o filenames
}
complete -F _bodhranhaze bodhranhaze
