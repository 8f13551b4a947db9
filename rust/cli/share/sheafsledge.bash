# Completions of sheafsledge for bash: source this file, or put it into bash-completion's folder under the name `sheafsledge`.

_sheafsledge() {
    local word=${COMP_WORDS[COMP_CWORD]} before=${COMP_WORDS[COMP_CWORD - 1]} offers='' i
    COMPREPLY=()
    if [ "$COMP_CWORD" -eq 1 ]; then
        mapfile -t COMPREPLY < <(compgen -W 'list pairs where fields seal paths join plan entries pcap --help -h --version -V' -- "$word")
        return
    fi
    case ${COMP_WORDS[1]} in
    list | where) offers='--names --json --dialect --output -o --help -h' ;;
    pairs) offers='--dialect --output -o --help -h' ;;
    seal | paths | plan) offers='--output -o --help -h' ;;
    fields) offers='--json --dialect --output -o --help -h' ;;
    join) offers='--last-may-stop --output -o --help -h' ;;
    entries) offers='--block --output -o --help -h' ;;
    pcap) offers='--output -o --times --help -h' ;;
    esac
    # After `--`, and as an option's value, a word is a file in any case.
    for ((i = 2; i < COMP_CWORD; i++)); do
        [ "${COMP_WORDS[i]}" != -- ] || offers=''
    done
    # In `--dialect=NAME` the mark is a word of its own.
    [ "$before" != = ] || before=${COMP_WORDS[COMP_CWORD - 2]}
    [ "$word" != = ] || word=''
    case $before in
    --dialect)
        mapfile -t COMPREPLY < <(compgen -W '9P2000.L 9P2000 9P2000.u' -- "$word")
        return
        ;;
    -o | --output | --times) offers='' ;;
    esac
    case $word in
    -*)
        mapfile -t COMPREPLY < <(compgen -W "$offers" -- "$word")
        return
        ;;
    esac
    mapfile -t COMPREPLY < <(compgen -f -- "$word")
}
complete -o filenames -F _sheafsledge sheafsledge
