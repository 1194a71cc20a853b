# Completion of the words of asg and plan for bash: source it, or put it into a folder of completions.

# The plain words before the cursor, and the option whose value stands there, where it is one of those given, which have
# values. Bash takes an equals sign as a word of its own.
_asg_plain() {
    local place=1 word
    plain=() option=''
    while [ "$place" -lt "$COMP_CWORD" ]; do
        word=${COMP_WORDS[place]}
        place=$((place + 1))
        if [[ " $1 " == *" $word "* ]]; then
            [ "$place" -lt "$COMP_CWORD" ] && [ "${COMP_WORDS[place]}" = = ] && place=$((place + 1))
            [ "$place" -ge "$COMP_CWORD" ] && option=$word
            place=$((place + 1))
        elif [ "$word" = = ]; then
            place=$((place + 1))
        elif [[ $word != -?* ]]; then
            plain+=("$word")
        fi
    done
}

# Completes to some of the words of the list.
_asg_of() {
    mapfile -t COMPREPLY < <(compgen -W "$1" -- "$cur")
}

# The value of an option.
_asg_value() {
    [ "$cur" = = ] && cur=
    case $option in
        --format) _asg_of 'asn square rect' ;;
        --place | --each | --count | --decimals) ;;
        *) mapfile -t COMPREPLY < <(compgen -f -- "$cur") ;;
    esac
}

# The word at the cursor: of these commands, of these options, or an objective, of which some commands take all.
_asg_word() {
    local objectives='sum sum-max pair capped= bottleneck bottleneck-max time-cost'
    if [[ $cur == --format=* ]]; then
        mapfile -t COMPREPLY < <(compgen -P --format= -W 'asn square rect' -- "${cur#--format=}")
    elif [[ $cur == -* ]]; then
        _asg_of "$2"
    elif [ "$cur" = = ] || [ "${COMP_WORDS[COMP_CWORD-1]}" = = ]; then
        return
    elif [ "${#plain[@]}" = 0 ]; then
        _asg_of "$1"
    elif [[ " make explain example " == *" ${plain[0]} "* ]]; then
        return
    elif [ "${#plain[@]}" = 1 ]; then
        [[ " $3 " == *" ${plain[0]} "* ]] && objectives+=' balanced lex'
        _asg_of "$objectives"
    else
        mapfile -t COMPREPLY < <(compgen -f -- "$cur")
    fi
}

_asg() {
    local cur=${COMP_WORDS[COMP_CWORD]} options='--format --place --each --count --script --brief' plain option
    _asg_plain '--format --place --each --count --script'
    [ -n "$option" ] && { _asg_value; return; }
    case ${plain[0]} in
        solve | edit) options='--format --place --each --brief' ;;
        rank) options='--count --format --each --brief' ;;
        check) options='--format --place --each --count --script' ;;
        make) options='' ;;
    esac
    _asg_word 'solve rank edit check make' "$options" 'solve check'
}

_plan() {
    local cur=${COMP_WORDS[COMP_CWORD]} options='--decimals --first --keep --asg --help' plain option
    _asg_plain '--decimals --keep --asg --place --csv --svg --html --count --file --format'
    [ -n "$option" ] && { _asg_value; return; }
    case ${plain[0]} in
        '') options='--help' ;;
        solve) options+=' --place --csv --svg --html' ;;
        rank) options+=' --count' ;;
        edit) options+=' --place' ;;
        explain) options='--file --format --help' ;;
        example) options='--help' ;;
    esac
    _asg_word 'solve rank edit explain example' "$options" 'solve edit'
}

complete -o filenames -F _asg asg ./asg
complete -o filenames -F _plan plan tools/plan
