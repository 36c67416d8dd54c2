# Completion of ninja-graph in bash. Rules and targets come from ninja-explain.
#
# A manifest may come from a stranger. So its paths never go through `compgen -W`, which would run
# what a path has in `$(..)`; and a path with `$` or a backtick is not offered, since readline does
# not always quote these. It may also need any time and memory, so a run that reads it is limited.

# Runs a program in the directory, with at most 1 GB of memory and 8 MB of output, and for 3 seconds
# if there is `timeout`.
_ninja_graph_limited() {
    local limit=()
    type -P timeout >/dev/null && limit=(timeout -k 1 3)
    (
        CDPATH='' cd -- "$folder" || exit
        ulimit -v 1000000
        exec "${limit[@]}" "$@"
    ) </dev/null 2>/dev/null | head -c 8000000
}

# The options of a subcommand, without those that every subcommand takes.
_ninja_graph_options() {
    case $1 in
        affected) echo '--source-dir -z --ignore --rule --prefix --no-phony --ignore-unknown --allow-empty --since --base' ;;
        draw) echo '--affected --fold --limit --inputs' ;;
        why) echo '--validations --no-order-only' ;;
        audit) echo '--all --only --except --json --list' ;;
        keys) echo '--base --with --with-file --take --resume --all --json' ;;
        stale) echo '--why --json --no-manifest' ;;
        times) echo '--top --by-rule --dead --json' ;;
        tests)
            echo '--ctest --meson --source-dir -z --ignore --ignore-unknown --allow-empty --format --why --json --unnamed --since --base'
            ;;
    esac
}

# The rules in the scope of the main file in the directory. Their names have only letters, digits and
# `_.-`.
_ninja_graph_rules() {
    _ninja_graph_limited ninja-explain -f "$file" -t rules
}

# The outputs of all edges of the main file in the directory.
_ninja_graph_targets() {
    _ninja_graph_limited ninja-explain -f "$file" -t targets all | sed 's/: [^:]*$//'
}

# The kinds of findings.
_ninja_graph_kinds() {
    ninja-graph audit --list 2>/dev/null | sed 's/,.*//'
}

# The value of an option without quotes, with the home directory for `~`.
_ninja_graph_plain() {
    local text=${1//[\\\"\']/}
    echo "${text/#'~/'/$HOME/}"
}

# Reads the words before the cursor into variables of the caller: the subcommand, the directory, the
# main file, whether `--` ended the options, and the option whose value is at the cursor.
_ninja_graph_words() {
    local index option
    for ((index = 1; index < COMP_CWORD; index++)); do
        option=${COMP_WORDS[index]}
        if [[ ! $subcommand && $option != -* ]]; then
            subcommand=$option
            continue
        fi
        [[ $ended ]] && continue
        case $option in
            --) ended=yes ;;
            -C | -f | --deps-log-file | --source-dir | --ignore | --rule | --prefix | --only | --except | \
                --base | --since | --with | --with-file | --take | --resume | --limit | --inputs | --ctest | --meson | \
                --format | --unnamed | --top)
                [[ ${COMP_WORDS[index + 1]} == '=' ]] && ((index++))
                if ((++index >= COMP_CWORD)); then
                    wanted=$option
                elif [[ $option == -C ]]; then
                    folder=$(_ninja_graph_plain "${COMP_WORDS[index]}")
                elif [[ $option == -f ]]; then
                    file=$(_ninja_graph_plain "${COMP_WORDS[index]}")
                fi
                ;;
            -C*) folder=$(_ninja_graph_plain "${option#-C}") ;;
            -f*) file=$(_ninja_graph_plain "${option#-f}") ;;
        esac
    done
}

# Offers those targets or rules on standard input that begin with the word at the cursor. For many,
# `compgen -W` would take minutes.
_ninja_graph_offer_lines() {
    local line start=${current//[\\\"\']/}
    while IFS= read -r line; do
        [[ $line == "$start"* && $line != *[\$\`]* ]] && COMPREPLY+=("$line")
    done
}

# Offers a value of the option that wants one.
_ninja_graph_offer_value() {
    # bash cuts `--rule=x` into three words
    [[ $current == '=' ]] && current=''
    case $wanted in
        -C | --source-dir | --base | --meson) offer=(-d) ;;
        -f | --deps-log-file | --ctest | --since | --with-file) offer=(-f) ;;
        --rule) _ninja_graph_offer_lines < <(_ninja_graph_rules) ;;
        --only | --except) offer=(-W "$(_ninja_graph_kinds)") ;;
        --format) offer=(-W 'lines ctest meson') ;;
        --unnamed) offer=(-W skip) ;;
    esac
}

# Offers those targets that begin with the word at the cursor, or files: FILE^ is a target too.
_ninja_graph_offer_targets() {
    _ninja_graph_offer_lines < <(_ninja_graph_targets)
    offer=(-f)
}

# The offers are in COMPREPLY, or else they are those of `compgen` for the words in `offer`.
_ninja_graph() {
    local subcommand='' folder=. file=build.ninja ended='' wanted=''
    local current=${COMP_WORDS[COMP_CWORD]} offer=()
    COMPREPLY=()
    _ninja_graph_words

    if [[ $wanted ]]; then
        _ninja_graph_offer_value
    elif [[ ! $subcommand && $current == -* ]]; then
        offer=(-W '-h --help -V --version')
    elif [[ ! $subcommand ]]; then
        offer=(-W 'affected audit draw json keys stale tests times why')
    elif [[ ! $ended && $current == -* ]]; then
        offer=(-W "-C -f --dyndep --deps --deps-log-file -h --help --
            $(_ninja_graph_options "$subcommand")")
    elif [[ $subcommand =~ ^(draw|keys|stale|times|why)$ ]]; then
        _ninja_graph_offer_targets
    fi

    [[ ${offer[0]} == -[fd] ]] && compopt -o filenames 2>/dev/null
    if ((${#COMPREPLY[@]} == 0 && ${#offer[@]} > 0)); then
        mapfile -t COMPREPLY < <(compgen "${offer[@]}" -- "$current")
    fi
}

complete -F _ninja_graph ninja-graph
