# Made by completions/generate.py from the help of the program: change that, and make it anew.

_diacmd() {
    local word=${COMP_WORDS[COMP_CWORD]} before=${COMP_WORDS[COMP_CWORD - 1]} command=${COMP_WORDS[1]} words=
    COMPREPLY=()
    [ "$before" = = ] && before=${COMP_WORDS[COMP_CWORD - 2]}
    [ "$word" = = ] && word=
    case $COMP_CWORD:$command:$before in
        1:*) words='show make check render compare refute propose breaking answer follow mask uses diff lint examples help -h --help -V --version' ;;
        *:help:*) words='show make check render compare refute propose breaking answer follow mask uses diff lint examples help' ;;
        *:check:--unknown) words='kept refused' ;;
        *:check:--levels) return ;;
        *:compare:--unknown) words='kept refused' ;;
        *:refute:--unknown) words='kept refused' ;;
        *:refute:--levels) return ;;
        *:propose:--unknown) words='kept refused' ;;
        *:breaking:--unknown) words='kept refused' ;;
        *:breaking:--sends) words='any known filled listed' ;;
        *:answer:--unknown) words='kept refused' ;;
        *:answer:--levels) return ;;
        *:follow:--unknown) words='kept refused' ;;
        *:follow:--levels) return ;;
        *:diff:--unknown) words='kept refused' ;;
        *:diff:--sends) words='any known filled listed' ;;
        *:lint:--unknown) words='kept refused' ;;
        *:examples:--unknown) words='kept refused' ;;
        *) case $command:$word in
            show:-*) words='--quiet --dict --as-text --names --values --lines --json -h --help' ;;
            make:-*) words='--quiet --dict --values -h --help' ;;
            check:-*) words='--quiet --unknown --levels --lines --stream --all --json -h --help' ;;
            render:-*) words='--quiet -h --help' ;;
            compare:-*) words='--quiet --unknown --json -h --help' ;;
            refute:-*) words='--quiet --unknown --levels --lines --json -h --help' ;;
            propose:-*) words='--quiet --unknown --json -h --help' ;;
            breaking:-*) words='--quiet --unknown --sends --messages --once --meaning --accepted --stale-allowed --explain --json -h --help' ;;
            answer:-*) words='--quiet --unknown --levels --host --realm --lines -h --help' ;;
            follow:-*) words='--quiet --dict --middle --check --unknown --levels --json -h --help' ;;
            mask:-*) words='--quiet --keep --mask --only --json -h --help' ;;
            uses:-*) words='--quiet --json -h --help' ;;
            diff:-*) words='--quiet --unknown --sends --json -h --help' ;;
            lint:-*) words='--quiet --unknown --only --except --accepted --json -h --help' ;;
            examples:-*) words='--quiet --unknown --text --json -h --help' ;;
        esac ;;
    esac
    if [ -n "$words" ]; then
        mapfile -t COMPREPLY < <(compgen -W "$words" -- "$word")
    elif [ "$before" = @ ] || [ "$word" = @ ]; then
        mapfile -t COMPREPLY < <(compgen -W base -- "${word#@}")
    else
        compopt -o filenames 2> /dev/null
        mapfile -t COMPREPLY < <(compgen -f -- "$word")
    fi
}
complete -F _diacmd diacmd
