# Completion of jvmx for bash. Made by bench/manual.py from the texts of jvmx help.
#
#     source docs/jvmx.bash

_jvmx() {
    local word=${COMP_WORDS[COMP_CWORD]} words
    if ((COMP_CWORD == 1)); then
        words='eval run trace debug campaign explore shrink check picture asm list tables needs help --help --version'
    else
        case ${COMP_WORDS[1]} in
            eval) words='--entry --args --help' ;;
            run) words='--entry --args --sched --max --spec --explain --help' ;;
            trace) words='--entry --args --sched --max --choices --help' ;;
            debug) words='--entry --args --sched --max --help' ;;
            campaign) words='--entry --args --spec --jobs --first --seed --pct --workers --max --stop --summary --help' ;;
            explore) words='--entry --args --spec --departures --within --part --runs --max --workers --all --summary --help' ;;
            shrink) words='--entry --args --sched --spec --max --runs --summary --help' ;;
            check) words='--spec --serial --explain --help' ;;
            picture) words='--spec --dot --help' ;;
            asm) words='--help' ;;
            list) words='--help' ;;
            tables) words='--help' ;;
            needs) words='--spec --help' ;;
            help) words='eval run trace debug campaign explore shrink check picture asm list tables needs' ;;
        esac
        [[ $word == -* || ${COMP_WORDS[1]} == help ]] || words=
    fi
    mapfile -t COMPREPLY < <(compgen -W "$words" -- "$word")
    ((COMP_CWORD > 1)) && [[ $word != -* && ${COMP_WORDS[1]} != help ]] &&
        mapfile -t -O "${#COMPREPLY[@]}" COMPREPLY < <(compgen -f -- "$word")
}
complete -o filenames -F _jvmx jvmx
