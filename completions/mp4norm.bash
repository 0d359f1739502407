# Completion of mp4norm for bash.

# Words of a list with commas, each offered once; what is before the last comma stays.
_mp4norm_list() {
    local before='' word
    [[ $current != *,* ]] || before=${current%,*},
    for word; do
        if [[ ,$before != *",$word,"* && $before$word = "$current"* ]]; then COMPREPLY+=("$before$word"); fi
    done
    compopt -o nospace 2>/dev/null
}

# Files after an @: lists of files.
_mp4norm_at() {
    local file
    while read -r file; do
        if [ -d "$file" ]; then
            compopt -o nospace 2>/dev/null
            file+=/
        fi
        printf -v file '@%q' "$file"
        COMPREPLY+=("$file")
    done < <(compgen -f -- "${current#@}")
}

_mp4norm() {
    local current=$2 previous=$3 command='' word words
    COMPREPLY=()
    for word in "${COMP_WORDS[@]:1:COMP_CWORD-1}"; do
        case $word in
        compare | check | sum | normalise | normalize | print | show | samples | extract | boxes | strip | help)
            command=$word
            break
            ;;
        esac
    done
    # bash takes `--option=value` for three words.
    [ "$previous" != = ] || previous=${COMP_WORDS[COMP_CWORD - 2]}
    case $previous in
    --without)
        _mp4norm_list packaging-2 media-2 packaging-1 media-1 times edits flags groups metadata bitrates ends origins labels timing roles ids timescales lead-ins
        return
        ;;
    --track | --drop | --limit | --rows | --max-bytes | --max-parts)
        compopt +o default 2>/dev/null
        return
        ;;
    -o | --out | --names-from | --check) return ;;
    esac
    case $command in
    '') words='compare check sum normalise print show samples extract boxes strip help --help --version' ;;
    compare) words='--without --all --align --limit --track --foreign --lossy --json --max-parts --explain --brief --help' ;;
    check) words='--foreign --lossy --names-from --zero --json --max-parts --explain --brief --help' ;;
    sum) words='--without --check --quiet --summary --new --foreign --lossy --track --no-header --bytes --names-from --zero --json --max-parts --explain --brief --help' ;;
    normalise | normalize) words='--out --without --track --foreign --lossy --replace --max-bytes --progress --max-parts --explain --brief --help' ;;
    print) words='--without --track --foreign --lossy --out --replace --max-parts --explain --brief --help' ;;
    show) words='--max-parts --explain --brief --help' ;;
    samples) words='--track --header --json --max-parts --explain --brief --help' ;;
    extract) words='--track --out --replace --max-bytes --progress --max-parts --explain --brief --help' ;;
    boxes) words='--json --fields --rows --max-parts --explain --brief --help' ;;
    strip) words='--foreign --lossy --drop --out --replace --max-bytes --progress --max-parts --explain --brief --help' ;;
    help) words='compare check sum normalise print show samples extract boxes strip' ;;
    esac
    # After a command that reads a file, words without a dash are files: bash completes them by itself.
    if [[ -z $command || $command = help || $current = -* ]]; then
        mapfile -t COMPREPLY < <(compgen -W "$words" -- "$current")
    elif [[ $current = @* ]]; then
        _mp4norm_at
    fi
}

complete -o default -F _mp4norm mp4norm
