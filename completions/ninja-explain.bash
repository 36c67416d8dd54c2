# Completion of ninja-explain in bash.
#
# A manifest may come from a stranger. So its paths never go through `compgen -W`, which would run
# what a path has in `$(..)`; and a path with `$` or a backtick is not offered, since readline does
# not always quote these. It may also need any time and memory, so a run that reads it is limited.

# Runs a program with at most 1 GB of memory and 8 MB of output, and for 3 seconds if there is
# `timeout`.
_ninja_explain_limited() {
    local limit=()
    type -P timeout >/dev/null && limit=(timeout -k 1 3)
    (
        ulimit -v 1000000
        exec "${limit[@]}" "$@"
    ) </dev/null 2>/dev/null | head -c 8000000
}

# The options of a tool, without those that every tool takes.
_ninja_explain_options() {
    case $1 in
        commands) echo '-s --take --resume --validations' ;;
        inputs) echo '--validations --dependency-order --no-shell-escape --print0' ;;
        rules) echo '-d' ;;
        compdb) echo '-x --directory' ;;
    esac
}

# The rules in the scope of a main file. Their names have only letters, digits and `_.-`.
_ninja_explain_rules() {
    _ninja_explain_limited ninja-explain -f "$1" -t rules
}

# The outputs of all edges of a main file.
_ninja_explain_targets() {
    _ninja_explain_limited ninja-explain -f "$1" -t targets all | sed 's/: [^:]*$//'
}

# The inputs that no edge makes.
_ninja_explain_sources() {
    _ninja_explain_limited ninja-explain -f "$1" -t targets rule
}

# Reads the words before the cursor into variables of the caller: the tool, the main file, the words
# that are not options, whether `--` ended the options, and the option whose value is at the cursor.
_ninja_explain_words() {
    local index option
    for ((index = 1; index < COMP_CWORD; index++)); do
        option=${COMP_WORDS[index]}
        if [[ $ended || $option != -* ]]; then
            words+=("$option")
            continue
        fi
        case $option in
            --) ended=yes ;;
            -t | -f | --take | --resume | --directory)
                [[ ${COMP_WORDS[index + 1]} == '=' ]] && ((index++))
                if ((++index >= COMP_CWORD)); then
                    wanted=$option
                elif [[ $option == -t ]]; then
                    tool=${COMP_WORDS[index]}
                elif [[ $option == -f ]]; then
                    file=${COMP_WORDS[index]}
                fi
                ;;
            -t*) tool=${option#-t} ;;
            -f*) file=${option#-f} ;;
        esac
    done
    file=${file//[\\\"\']/}
    file=${file/#'~/'/$HOME/}
}

# Offers those paths or rules on standard input that begin with the word at the cursor. For many,
# `compgen -W` would take minutes.
_ninja_explain_offer_paths() {
    local path start=${current//[\\\"\']/}
    while IFS= read -r path; do
        [[ $path == "$start"* && $path != *[\$\`]* ]] && COMPREPLY+=("$path")
    done
}

# Offers a word that is not an option.
_ninja_explain_offer_words() {
    case $tool in
        commands | inputs | query)
            _ninja_explain_offer_paths < <(_ninja_explain_targets "$file")
            if [[ $tool == query ]]; then
                _ninja_explain_offer_paths < <(_ninja_explain_sources "$file")
            fi
            # FILE^ is a target too
            offer=(-f)
            ;;
        compdb) _ninja_explain_offer_paths < <(_ninja_explain_rules "$file") ;;
        targets)
            if ((${#words[@]} == 0)); then
                offer=(-W 'all depth rule')
            elif [[ ${#words[@]} == 1 && ${words[0]} == rule ]]; then
                _ninja_explain_offer_paths < <(_ninja_explain_rules "$file")
            fi
            ;;
    esac
}

# Offers a value of the option that wants one.
_ninja_explain_offer_value() {
    # bash cuts `--directory=x` into three words
    [[ $current == '=' ]] && current=''
    case $wanted in
        -t) offer=(-W "$tools") ;;
        -f) offer=(-f) ;;
        --directory) offer=(-d) ;;
    esac
}

# The offers are in COMPREPLY, or else they are those of `compgen` for the words in `offer`.
_ninja_explain() {
    local tools='commands inputs targets query rules compdb'
    local tool='' file=build.ninja words=() ended='' wanted=''
    local current=${COMP_WORDS[COMP_CWORD]} offer=()
    COMPREPLY=()
    _ninja_explain_words

    if [[ $wanted ]]; then
        _ninja_explain_offer_value
    elif [[ ! $ended && $current == -t?* ]]; then
        current=${current#-t}
        offer=(-P -t -W "$tools")
    elif [[ ! $ended && $current == -* ]]; then
        offer=(-W "-t -f --stdin --dyndep -- $(_ninja_explain_options "$tool")")
    else
        _ninja_explain_offer_words
    fi

    [[ ${offer[0]} == -[fd] ]] && compopt -o filenames 2>/dev/null
    if ((${#COMPREPLY[@]} == 0 && ${#offer[@]} > 0)); then
        mapfile -t COMPREPLY < <(compgen "${offer[@]}" -- "$current")
    fi
}

complete -F _ninja_explain ninja-explain
