# Completes the options of mcd in bash.
_mcd() {
    local word=$2 before=$3
    COMPREPLY=()
    case $before in
        --replay | --unix-socket | -s) mapfile -t COMPREPLY < <(compgen -f -- "$word") ;;
        --listen | -l) mapfile -t COMPREPLY < <(compgen -W "127.0.0.1:11211 0.0.0.0:11211 [::1]:11211 [::]:11211 unix:/run/mcd/mcd.sock" -- "$word") ;;
        --unix-mask | -a) mapfile -t COMPREPLY < <(compgen -W "700 770 777" -- "$word") ;;
        --metrics) mapfile -t COMPREPLY < <(compgen -W "11212 127.0.0.1:11212" -- "$word") ;;
        --memory | --bytes) mapfile -t COMPREPLY < <(compgen -W "64m 256m 1g 4g" -- "$word") ;;
        --client-memory) mapfile -t COMPREPLY < <(compgen -W "32m 64m 256m 1g" -- "$word") ;;
        --value-limit | --line-limit | -I) mapfile -t COMPREPLY < <(compgen -W "1m 2m 4m 8m" -- "$word") ;;
        --port | -p | --memory-limit | -m | --at | --shards | -t | --seats | -c | --window | --connections | --idle-timeout | --drain) ;;
        *) mapfile -t COMPREPLY < <(compgen -W "--listen --port --unix-socket --unix-mask --stdio --replay --at --version --plan --shards --seats --bytes --memory --memory-limit --value-limit --line-limit --window --client-memory --drop-in --enable-shutdown --connections --idle-timeout --verbose --metrics --drain --help" -- "$word") ;;
    esac
}
complete -F _mcd mcd
