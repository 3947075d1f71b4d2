# Completion of the command `cfb` for bash: source it, or put it into a folder that bash-completion reads.

_cfb_words="check ls info map cat extract put append resize mk mkdir rm new repair pulses pulse help"

# The options of a word.
_cfb_options() {
    case $1 in
        check) echo "-v --help" ;;
        ls) echo "-l --help" ;;
        map) echo "--svg --help" ;;
        extract) echo "--force --help" ;;
        rm) echo "-r --help" ;;
        new) echo "--major --size --sectors --entries --mini --force --help" ;;
        repair | pulses) echo "-n --help" ;;
        *) echo "--help" ;;
    esac
}

# Puts the operands before the cursor into `given`: what is neither an option nor the value of one.
_cfb_operands() {
    local i value=
    for ((i = 2; i < COMP_CWORD; i++)); do
        if [ -n "$value" ]; then
            value=
            continue
        fi
        case ${COMP_WORDS[1]}:${COMP_WORDS[i]} in
            new:--major | new:--size | new:--sectors | new:--entries | new:--mini | pulses:-n | map:--svg) value=yes ;;
            *:-?*) ;;
            *) given+=("${COMP_WORDS[i]}") ;;
        esac
    done
}

# A word as the shell would take it, but for what it would run: without quotes and with its home folder.
_cfb_plain() {
    local text=$1
    case $text in
        \'*) text=${text#\'} text=${text%\'} ;;
        \"*) text=${text#\"} text=${text%\"} ;;
        \~/*) text=$HOME/${text#\~/} ;;
    esac
    [[ $1 == \'* ]] || text=$(printf '%s' "$text" | sed 's/\\\(.\)/\1/g')
    printf '%s' "$text"
}

# The paths in the file $1 that begin with what is typed, $2. Behind an open quote they stand as they are.
_cfb_paths() {
    local path file typed
    file=$(_cfb_plain "$1")
    typed=$(_cfb_plain "$2")
    while IFS= read -r path; do
        [[ $path == "$typed"* ]] || continue
        [[ $2 == [\'\"]* ]] || path=$(printf %q "$path")
        COMPREPLY+=("$path")
    done < <(cfb ls -- "$file" 2>/dev/null)
}

_cfb() {
    local cur=${COMP_WORDS[COMP_CWORD]} word=${COMP_WORDS[1]} given=()
    COMPREPLY=()
    if [ "$COMP_CWORD" -eq 1 ]; then
        mapfile -t COMPREPLY < <(compgen -W "$_cfb_words --help --version" -- "$cur")
        return
    elif [[ $cur == -* ]]; then
        mapfile -t COMPREPLY < <(compgen -W "$(_cfb_options "$word")" -- "$cur")
        return
    fi
    _cfb_operands
    case $word:${#given[@]} in
        help:0) mapfile -t COMPREPLY < <(compgen -W "$_cfb_words" -- "$cur") ;;
        check:* | *:0) compopt -o default ;;
        extract:1) compopt -o dirnames ;;
        cat:1 | put:1 | append:1 | resize:1 | mk:1 | mkdir:1 | rm:1 | pulses:1 | pulse:1) _cfb_paths "${given[0]}" "$cur" ;;
    esac
}

complete -F _cfb cfb
