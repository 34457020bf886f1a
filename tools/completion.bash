# Made by docs/options.py. For bash: source tools/completion.bash
_beebtube() {
    local word=${COMP_WORDS[COMP_CWORD]} before=${COMP_WORDS[COMP_CWORD - 1]} command=${COMP_WORDS[1]:-} words=
    [[ $command != @(replay|follow) ]] || command="$command ${COMP_WORDS[2]:-}"
    COMPREPLY=()
    if [ "$COMP_CWORD" -eq 1 ]; then
        mapfile -t COMPREPLY < <(compgen -W 'check asm dis replay solo run resume follow gen --help --version' -- "$word")
        return
    fi
    case $before in
        replay | follow) words='host para' ;;
        asm | dis) words='6502 65c02' ;;
        --speed) words='3 4' ;;
        --plugs | --keep | --at | --watch | --from) return ;;
    esac
    if [ -z "$words" ] && [ "${word:0:1}" = - ]; then
        case $command in
            'replay host') words='--os --rom0 --rom1 --rom2 --rom3 --rom4 --rom5 --rom6 --rom7 --rom8 --rom9 --rom10
                --rom11 --rom12 --rom13 --rom14 --rom15 --font --disc0 --disc1 --keys --plugs --speed
                --wav --no-tube' ;;
            'replay para') words='--tube --speed' ;;
            'solo') words='--os --tube --rom0 --rom1 --rom2 --rom3 --rom4 --rom5 --rom6 --rom7 --rom8 --rom9
                --rom10 --rom11 --rom12 --rom13 --rom14 --rom15 --font --disc0 --disc1 --keys --plugs
                --keep --speed --wav --save' ;;
            'run') words='--os --tube --rom0 --rom1 --rom2 --rom3 --rom4 --rom5 --rom6 --rom7 --rom8 --rom9
                --rom10 --rom11 --rom12 --rom13 --rom14 --rom15 --font --disc0 --disc1 --keys --plugs
                --keep --speed --wav --save' ;;
            'resume') words='--keep --wav --save' ;;
            'follow host') words='--os --rom0 --rom1 --rom2 --rom3 --rom4 --rom5 --rom6 --rom7 --rom8 --rom9 --rom10
                --rom11 --rom12 --rom13 --rom14 --rom15 --font --disc0 --disc1 --keys --points --plugs
                --speed --at --watch --from --no-tube --counts' ;;
            'follow para') words='--tube --points --speed --at --watch --from --counts' ;;
        esac
    fi
    if [ -n "$words" ]; then
        mapfile -t COMPREPLY < <(compgen -W "$words" -- "$word")
    else
        mapfile -t COMPREPLY < <(compgen -f -- "$word")
    fi
}
complete -o filenames -F _beebtube beebtube ./beebtube
_beebtube_debug() {
    local word=${COMP_WORDS[COMP_CWORD]}
    if [ "${word:0:1}" = - ]; then
        mapfile -t COMPREPLY < <(compgen -W '--help -c --json --against --host-labels --para-labels' -- "$word")
    else
        mapfile -t COMPREPLY < <(compgen -f -- "$word")
    fi
}
complete -o filenames -F _beebtube_debug debug tools/debug
_beebtube_differs() {
    local word=${COMP_WORDS[COMP_CWORD]}
    if [ "${word:0:1}" = - ]; then
        mapfile -t COMPREPLY < <(compgen -W '--help --pictures --order --mame --within' -- "$word")
    else
        mapfile -t COMPREPLY < <(compgen -f -- "$word")
    fi
}
complete -o filenames -F _beebtube_differs differs tools/differs
_beebtube_execute() {
    local word=${COMP_WORDS[COMP_CWORD]}
    if [ "${word:0:1}" = - ]; then
        mapfile -t COMPREPLY < <(compgen -W '--help --at --start --host --both --host-at --host-start --host-labels --os --tube --disc --labels --cpu --speed --limit --time --keys --font --shots --save --trace --listing' -- "$word")
    else
        mapfile -t COMPREPLY < <(compgen -f -- "$word")
    fi
}
complete -o filenames -F _beebtube_execute execute tools/execute
_beebtube_labels() {
    local word=${COMP_WORDS[COMP_CWORD]}
    if [ "${word:0:1}" = - ]; then
        mapfile -t COMPREPLY < <(compgen -W '--help --in' -- "$word")
    else
        mapfile -t COMPREPLY < <(compgen -f -- "$word")
    fi
}
complete -o filenames -F _beebtube_labels labels tools/labels
_beebtube_play() {
    local word=${COMP_WORDS[COMP_CWORD]}
    if [ "${word:0:1}" = - ]; then
        mapfile -t COMPREPLY < <(compgen -W '--help --both --wait --start --hold --gap --caps --out --movie --wav --ticks' -- "$word")
    else
        mapfile -t COMPREPLY < <(compgen -f -- "$word")
    fi
}
complete -o filenames -F _beebtube_play play tools/play
_beebtube_suite() {
    local word=${COMP_WORDS[COMP_CWORD]}
    if [ "${word:0:1}" = - ]; then
        mapfile -t COMPREPLY < <(compgen -W '--help --jobs --gather --clear --text --both --ticks --seconds --recursive --shot --against --only --keep --pages --junit --tap --batch -j' -- "$word")
    else
        mapfile -t COMPREPLY < <(compgen -f -- "$word")
    fi
}
complete -o filenames -F _beebtube_suite suite tools/suite
