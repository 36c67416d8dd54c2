# Completion of ninja-explain in fish.

# Runs a program with at most 1 GB of memory and 8 MB of output, and for 3 seconds if there is
# `timeout`: an untrusted manifest may need any time and memory. `sh` sets the limit of memory, which
# fish would set for itself.
function __ninja_explain_limited
    set -l limit
    command -q timeout; and set limit timeout -k 1 3
    sh -c 'ulimit -v 1000000; exec "$@"' sh $limit $argv </dev/null 2>/dev/null | head -c 8000000
end

# Prints the tools, each with a description.
function __ninja_explain_tools
    printf '%s\t%s\n' \
        commands 'The commands that build the targets' \
        inputs 'The files that the targets are built from' \
        targets 'What can be built, as trees or as a list' \
        query 'How files are made, and what uses them' \
        rules 'The rules of the main file' \
        compdb 'A compilation database'
end

# Prints the value that an option has before the cursor, such as the tool after -t.
function __ninja_explain_value
    set -l follows no
    for word in (commandline -opc)[2..-1]
        if test $follows = yes
            printf '%s\n' $word
            return
        else if test "$word" = --
            return
        else if test "$word" = $argv[1]
            set follows yes
        else if string match -q -- "$argv[1]?*" $word
            string sub -s 3 -- $word
            return
        end
    end
end

# Whether one of these is the tool.
function __ninja_explain_tool_is
    contains -- (__ninja_explain_value -t) $argv
end

# Prints the words that are not options.
function __ninja_explain_words
    set -l skip no
    for word in (commandline -opc)[2..-1]
        if test $skip = yes
            set skip no
        else if contains -- $word -t -f --take --resume --directory
            set skip yes
        else if not string match -q -- '-*' $word
            printf '%s\n' $word
        end
    end
end

function __ninja_explain_no_view_yet
    __ninja_explain_tool_is targets; and test (count (__ninja_explain_words)) -eq 0
end

function __ninja_explain_wants_rule
    __ninja_explain_tool_is compdb; and return
    __ninja_explain_tool_is targets; and test "$(__ninja_explain_words)" = rule
end

# Prints the directories with which the value of --directory may continue.
function __ninja_explain_directories
    __fish_complete_directories (commandline -ct | string replace -- --directory= '')
end

# Prints the output of a tool for the main file.
function __ninja_explain_ask
    set -l file (__ninja_explain_value -f)
    test -n "$file"; or set file build.ninja
    __ninja_explain_limited ninja-explain -f $file -t $argv
end

# Prints the outputs of all edges and, for query, the inputs that no edge makes. If none of them fits,
# it prints files, since FILE^ is a target too.
function __ninja_explain_paths
    set -l current (commandline -ct)
    set -l targets (__ninja_explain_ask targets all | string replace -r ': [^:]*$' '')
    set -l sources
    __ninja_explain_tool_is query; and set sources (__ninja_explain_ask targets rule)
    if string match -q -- "$current*" $targets $sources
        printf '%s\tTarget\n' $targets
        set -q sources[1]; and printf '%s\tSource\n' $sources
    else
        __fish_complete_path "$current"
    end
end

complete -c ninja-explain -f

complete -c ninja-explain -s t -x -a '(__ninja_explain_tools)' -d 'The tool to run'
complete -c ninja-explain -s f -r -F -d 'The main file (default: build.ninja)'
complete -c ninja-explain -l stdin -d 'Read the main file from standard input'
complete -c ninja-explain -l dyndep -d 'Add what dyndep files discover'

complete -c ninja-explain -n '__ninja_explain_tool_is commands' -s s -d 'Only what makes the targets'
complete -c ninja-explain -n '__ninja_explain_tool_is commands' -l take -x -d 'Stop after this many'
complete -c ninja-explain -n '__ninja_explain_tool_is commands' -l resume -x -d 'Continue from a mark'
complete -c ninja-explain -n '__ninja_explain_tool_is commands inputs' -l validations \
    -d 'Follow validations'
complete -c ninja-explain -n '__ninja_explain_tool_is inputs' -l dependency-order -d 'Not sorted'
complete -c ninja-explain -n '__ninja_explain_tool_is inputs' -l no-shell-escape -d 'Not quoted'
complete -c ninja-explain -n '__ninja_explain_tool_is inputs' -l print0 -d 'End paths with a zero byte'
complete -c ninja-explain -n '__ninja_explain_tool_is rules' -s d -d 'With descriptions'
complete -c ninja-explain -n '__ninja_explain_tool_is compdb' -s x -d 'Expand response files'
complete -c ninja-explain -n '__ninja_explain_tool_is compdb' -l directory -x \
    -d 'The directory of each entry' -a '(__ninja_explain_directories)'

complete -c ninja-explain -n '__ninja_explain_tool_is commands inputs query' \
    -a '(__ninja_explain_paths)'
complete -c ninja-explain -n __ninja_explain_no_view_yet -a all -d 'All outputs, with their rules'
complete -c ninja-explain -n __ninja_explain_no_view_yet -a depth -d 'Trees of a given depth'
complete -c ninja-explain -n __ninja_explain_no_view_yet -a rule -d 'Outputs of a rule, or sources'
complete -c ninja-explain -n __ninja_explain_wants_rule -a '(__ninja_explain_ask rules)' -d Rule
