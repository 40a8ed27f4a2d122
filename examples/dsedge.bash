# Completion of dsedge's commands, options and their words for bash: `source examples/dsedge.bash`, or `./install`.
_dsedge() {
    local word=${COMP_WORDS[COMP_CWORD]} before=${COMP_WORDS[COMP_CWORD - 1]} command=${COMP_WORDS[1]}
    COMPREPLY=()
    case $before in
        --kind) COMPREPLY=($(compgen -W 'srtcm trtcm rfc4115' -- "$word")); return ;;
        --mode) COMPREPLY=($(compgen -W 'blind aware' -- "$word")); return ;;
        --red) COMPREPLY=($(compgen -W 'keep drop' -- "$word")); return ;;
        --workers) COMPREPLY=($(compgen -W '1 2 3 4 8 16 32 64' -- "$word")); return ;;
        --book) COMPREPLY=($(compgen -f -- "$word")); return ;;
        --contracts | --commands | --cir | --cbs | --ebs | --pir | --pbs | --eir | --origin | --rate | --burst | --port | --contract | --meter) return ;;
        --to) COMPREPLY=($(compgen -W 'tc dpdk' -- "$word")); return ;;
        --most) COMPREPLY=($(compgen -W 'cir cbs pir pbs eir ebs' -- "$word")); return ;;
    esac
    if [ "$COMP_CWORD" -eq 1 ]; then
        COMPREPLY=($(compgen -W 'meter envelope certify check headroom draw quote export audit drive book mark arrivals --help --version' -- "$word"))
        return
    fi
    case $command in
        meter) COMPREPLY=($(compgen -W '--kind --mode --cir --cbs --ebs --pir --pbs --eir --origin --levels --json --explain --help' -- "$word")) ;;
        envelope) COMPREPLY=($(compgen -W '--rate --burst --json --explain --help' -- "$word")) ;;
        mark)
            case $word in
                -*) COMPREPLY=($(compgen -W '--port --workers --red --verdict --json --explain --help' -- "$word")) ;;
                *) COMPREPLY=($(compgen -f -- "$word")) ;;
            esac
            ;;
        quote)
            case $word in
                -*) COMPREPLY=($(compgen -W '--contract --most --count --json --explain --help' -- "$word")) ;;
                *) COMPREPLY=($(compgen -f -- "$word")) ;;
            esac
            ;;
        export)
            case $word in
                -*) COMPREPLY=($(compgen -W '--meter --to --explain --help' -- "$word")) ;;
                *) COMPREPLY=($(compgen -f -- "$word")) ;;
            esac
            ;;
        arrivals)
            case $word in
                -*) COMPREPLY=($(compgen -W '--port --contract --colours --explain --help' -- "$word")) ;;
                *) COMPREPLY=($(compgen -f -- "$word")) ;;
            esac
            ;;
        book)
            case $word in
                -*) COMPREPLY=($(compgen -W '--to-domain --explain --help' -- "$word")) ;;
                *) COMPREPLY=($(compgen -f -- "$word")) ;;
            esac
            ;;
        drive)
            case $word in
                -*) COMPREPLY=($(compgen -W '--book --contracts --commands --json --explain --help' -- "$word")) ;;
                *) COMPREPLY=($(compgen -f -- "$word")) ;;
            esac
            ;;
        draw)
            case $word in
                -*) COMPREPLY=($(compgen -W '--explain --help' -- "$word")) ;;
                *) COMPREPLY=($(compgen -f -- "$word")) ;;
            esac
            ;;
        certify | check | headroom | audit)
            case $word in
                -*) COMPREPLY=($(compgen -W '--json --explain --help' -- "$word")) ;;
                *) COMPREPLY=($(compgen -f -- "$word")) ;;
            esac
            ;;
    esac
}
complete -F _dsedge dsedge
