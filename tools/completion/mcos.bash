# Completion of mcos for bash: commands, options, files, and the numbers of the cores that a configuration has.
# Read it with `source`, or copy it to ~/.local/share/bash-completion/completions/mcos.
# tools/tests/test_manual.py holds it to the program's help.

# Offers the words of $2 that begin with $1.
_mcos_offer() {
    local word
    for word in $2; do
        [[ $word == "$1"* ]] && COMPREPLY+=("$word")
    done
}

# Offers the folders and the JSON files whose paths begin with $1; if there are none, any file.
_mcos_offer_files() {
    local path
    while IFS= read -r path; do
        COMPREPLY+=("$path")
    done < <(compgen -d -- "$1"; compgen -f -X '!*.json' -- "$1")
    if ((${#COMPREPLY[@]})); then
        compopt -o filenames 2>/dev/null
    else
        compopt -o default 2>/dev/null
    fi
}

# Offers the numbers of the cores of the configuration $2 that begin with $1; none if it cannot be read.
_mcos_offer_cores() {
    # The path stands here as it was typed, with a tilde before it or quotes in it.
    local path=${2/#\~\//$HOME/}
    path=${path//[\\\'\"]/}
    [[ -f $path ]] || return
    _mcos_offer "$1" "$(python3 -c '
import json, sys
cores = json.load(open(sys.argv[1], encoding="utf-8"))["cores"]
print(*(core["id"] for core in cores if type(core["id"]) is int))
' "$path" 2>/dev/null)"
}

# Sets the variables of _mcos by the words before the cursor.
_mcos_read_words() {
    local index word
    for ((index = 1; index < COMP_CWORD; index++)); do
        word=${COMP_WORDS[index]}
        if [[ $wanted && $word == = ]]; then
            # bash divides `--schedule=FILE` into three words.
            continue
        elif [[ $wanted ]]; then
            wanted=
        elif [[ $word == --schedule || $word == --items || $word == --turns || $word == --mail ]]; then
            wanted=$word
            given+=" $word "
        elif [[ $word == -* ]]; then
            given+=" $word "
        elif [[ $command ]]; then
            arguments+=("$word")
        else
            command=$word
        fi
    done
}

# Offers the options of $2 that begin with $1 and do not stand before the cursor, and help.
_mcos_offer_unused() {
    local option
    for option in $2; do
        [[ $given == *" $option "* ]] || _mcos_offer "$1" "$option"
    done
    _mcos_offer "$1" '-h --help'
}

_mcos_offer_options() {
    case $command in
        '') _mcos_offer "$1" '-h --help -V --version' ;;
        run) _mcos_offer_unused "$1" '--schedule --items' ;;
        threads) _mcos_offer_unused "$1" '--turns --mail --items --order' ;;
        check | cut | groups | group | replay) _mcos_offer "$1" '-h --help' ;;
    esac
}

_mcos_offer_arguments() {
    case $command:${#arguments[@]} in
        :0 | help:0) _mcos_offer "$1" 'run check cut groups group replay threads help' ;;
        run:[01] | threads:[01] | check:0 | cut:0 | groups:0 | group:0 | replay:0) _mcos_offer_files "$1" ;;
        cut:1 | group:1 | replay:1) _mcos_offer_cores "$1" "${arguments[0]}" ;;
        replay:2) compopt -o default 2>/dev/null ;;
    esac
}

_mcos() {
    local current=${COMP_WORDS[COMP_CWORD]}
    local command= wanted= given=
    local -a arguments=()
    COMPREPLY=()
    _mcos_read_words
    if [[ $wanted == --schedule ]]; then
        _mcos_offer_files "${current#=}"
    elif [[ $wanted == --items ]]; then
        _mcos_offer_cores "${current#=}" "${arguments[0]}"
    elif [[ $wanted == --mail ]]; then
        _mcos_offer "${current#=}" 'ring locked'
    elif [[ $wanted ]]; then
        return 0
    elif [[ $current == -* ]]; then
        _mcos_offer_options "$current"
    else
        _mcos_offer_arguments "$current"
    fi
    return 0
}

complete -F _mcos mcos
