# Completion of ninja-graph in fish. Rules and targets come from ninja-explain.

# Runs a program with at most 1 GB of memory and 8 MB of output, and for 3 seconds if there is
# `timeout`: an untrusted manifest may need any time and memory. `sh` sets the limit of memory, which
# fish would set for itself.
function __ninja_graph_limited
    set -l limit
    command -q timeout; and set limit timeout -k 1 3
    sh -c 'ulimit -v 1000000; exec "$@"' sh $limit $argv </dev/null 2>/dev/null | head -c 8000000
end

# Prints the subcommands, each with a description.
function __ninja_graph_subcommands
    printf '%s\t%s\n' \
        affected 'The outputs that a change of files affects' \
        audit 'Likely mistakes and dead entries' \
        draw 'A drawing of the edges that targets need' \
        json 'Each edge as an object of JSON' \
        keys 'A key for each command that targets need' \
        stale 'What Ninja would run now' \
        tests 'The tests that a change of files reaches' \
        times 'Where the time of the last builds went' \
        why 'A chain of inputs by which a file needs another'
end

# Whether one of these is the subcommand; without any, whether there is none yet.
function __ninja_graph_is
    set -l words (commandline -opc)
    if set -q words[2]
        contains -- $words[2] $argv
    else
        test (count $argv) -eq 0
    end
end

function __ninja_graph_has_subcommand
    not __ninja_graph_is
end

# Prints the value that an option of one letter has before the cursor.
function __ninja_graph_value
    set -l follows no
    for word in (commandline -opc)[2..-1]
        if test $follows = yes
            printf '%s\n' $word
            return
        else if test "$word" = --
            return
        else if test "$word" = $argv[1]
            set follows yes
        else if string match -q -- "$argv[1]?*" $word
            string sub -s 3 -- $word
            return
        end
    end
end

# Prints the output of a tool for the main file in the directory. The shell's own directory stays.
function __ninja_graph_ask
    set -l file (__ninja_graph_value -f)
    set -l folder (__ninja_graph_value -C)
    test -n "$file"; or set file build.ninja
    test -n "$folder"; or set folder .
    __ninja_graph_limited env -C $folder ninja-explain -f $file -t $argv
end

# Prints the outputs of all edges, or files if none fits.
function __ninja_graph_targets
    set -l targets (__ninja_graph_ask targets all | string replace -r ': [^:]*$' '')
    # FILE^ is a target too, and a source is a file
    set -l current (commandline -ct)
    if string match -q -- "$current*" $targets
        printf '%s\n' $targets
    else
        __fish_complete_path $current
    end
end

# Prints the kinds of findings.
function __ninja_graph_kinds
    ninja-graph audit --list 2>/dev/null | string replace -r ',.*' ''
end

complete -c ninja-graph -f

complete -c ninja-graph -n __ninja_graph_is -a '(__ninja_graph_subcommands)'
complete -c ninja-graph -s h -l help -d 'Write a help'
complete -c ninja-graph -n __ninja_graph_is -s V -l version -d 'Write the version'
complete -c ninja-graph -n __ninja_graph_has_subcommand -s C -x -d 'Change to this directory first' \
    -a '(__fish_complete_directories)'
complete -c ninja-graph -n __ninja_graph_has_subcommand -s f -r -F -d 'The main file (default: build.ninja)'
complete -c ninja-graph -n __ninja_graph_has_subcommand -l dyndep -d 'Join the discoveries of dyndep files'
complete -c ninja-graph -n __ninja_graph_has_subcommand -l deps -d 'Join what builds discovered'
complete -c ninja-graph -n __ninja_graph_has_subcommand -l deps-log-file -r -F -d 'The same, with this deps log'

complete -c ninja-graph -n '__ninja_graph_is affected' -l source-dir -x \
    -d 'A directory of the changed paths' -a '(__fish_complete_directories)'
complete -c ninja-graph -n '__ninja_graph_is affected' -s z -d 'Paths are ended by zero bytes'
complete -c ninja-graph -n '__ninja_graph_is affected' -l ignore -x -d 'Ignore paths that this glob matches'
complete -c ninja-graph -n '__ninja_graph_is affected' -l rule -x -d 'Only edges with this rule' \
    -a '(__ninja_graph_ask rules)'
complete -c ninja-graph -n '__ninja_graph_is affected' -l prefix -x -d 'Only paths that begin so'
complete -c ninja-graph -n '__ninja_graph_is affected' -l no-phony -d 'No outputs of phony edges'
complete -c ninja-graph -n '__ninja_graph_is affected' -l ignore-unknown \
    -d 'Do not report paths that no edge names'
complete -c ninja-graph -n '__ninja_graph_is affected' -l allow-empty -d 'Accept an input without a changed path'
complete -c ninja-graph -n '__ninja_graph_is affected' -l since -r -F -d 'Take commands as changed whose keys are not here'
complete -c ninja-graph -n '__ninja_graph_is affected' -l base -x -d 'With --since, a directory that keys do not name' \
    -a '(__fish_complete_directories)'

complete -c ninja-graph -n '__ninja_graph_is draw keys stale times why' -a '(__ninja_graph_targets)'
complete -c ninja-graph -n '__ninja_graph_is draw' -l affected -d 'Draw the edges that a change of the files affects'
complete -c ninja-graph -n '__ninja_graph_is draw' -l fold -d 'Draw each phony edge as a point'
complete -c ninja-graph -n '__ninja_graph_is draw' -l limit -x -d 'How many nodes at most'
complete -c ninja-graph -n '__ninja_graph_is draw' -l inputs -x -d 'How many inputs of an edge at most'
complete -c ninja-graph -n '__ninja_graph_is why' -l validations -d 'Take validations as inputs too'
complete -c ninja-graph -n '__ninja_graph_is why' -l no-order-only -d 'Leave out order-only inputs'

complete -c ninja-graph -n '__ninja_graph_is audit' -l all -d 'Report findings of every kind'
complete -c ninja-graph -n '__ninja_graph_is audit' -l only -x -d 'Report this kind alone' \
    -a '(__ninja_graph_kinds)'
complete -c ninja-graph -n '__ninja_graph_is audit' -l except -x -d 'Do not report this kind' \
    -a '(__ninja_graph_kinds)'
complete -c ninja-graph -n '__ninja_graph_is audit' -l json -d 'An object of JSON for each finding'
complete -c ninja-graph -n '__ninja_graph_is audit' -l list -d 'List the kinds'

complete -c ninja-graph -n '__ninja_graph_is keys' -l base -x -d 'Let a number stand for this directory' \
    -a '(__fish_complete_directories)'
complete -c ninja-graph -n '__ninja_graph_is keys' -l with -x -d 'Let this text go into every key'
complete -c ninja-graph -n '__ninja_graph_is keys' -l with-file -r -F \
    -d 'Let the contents of this file go into every key'
complete -c ninja-graph -n '__ninja_graph_is keys' -l take -x -d 'Stop after so many commands'
complete -c ninja-graph -n '__ninja_graph_is keys' -l resume -x -d 'Write the rest after this mark'
complete -c ninja-graph -n '__ninja_graph_is keys' -l all -d 'Every command, in the order of the manifest'
complete -c ninja-graph -n '__ninja_graph_is keys' -l json -d 'An object of JSON for each command'

complete -c ninja-graph -n '__ninja_graph_is stale' -l why -d 'Write the first reason after each output'
complete -c ninja-graph -n '__ninja_graph_is stale' -l json -d 'An object of JSON for each stale edge'
complete -c ninja-graph -n '__ninja_graph_is stale' -l no-manifest \
    -d 'Do not ask whether the manifest itself is stale'

complete -c ninja-graph -n '__ninja_graph_is times' -l top -x -d 'The slowest commands, at most so many'
complete -c ninja-graph -n '__ninja_graph_is times' -l by-rule -d 'The sum and the slowest command of each rule'
complete -c ninja-graph -n '__ninja_graph_is times' -l dead -d 'The outputs that the manifest no longer has'
complete -c ninja-graph -n '__ninja_graph_is times' -l json -d 'An object of JSON for each line'

complete -c ninja-graph -n '__ninja_graph_is tests' -l ctest -r -F -d 'What ctest --show-only=json-v1 wrote'
complete -c ninja-graph -n '__ninja_graph_is tests' -l meson -x \
    -d 'A build directory of Meson' -a '(__fish_complete_directories)'
complete -c ninja-graph -n '__ninja_graph_is tests' -l source-dir -x \
    -d 'A directory of the changed paths' -a '(__fish_complete_directories)'
complete -c ninja-graph -n '__ninja_graph_is tests' -s z -d 'Paths are ended by zero bytes'
complete -c ninja-graph -n '__ninja_graph_is tests' -l ignore -x -d 'Ignore paths that this glob matches'
complete -c ninja-graph -n '__ninja_graph_is tests' -l ignore-unknown \
    -d 'Do not report paths that no edge names'
complete -c ninja-graph -n '__ninja_graph_is tests' -l allow-empty -d 'Accept an input without a changed path'
complete -c ninja-graph -n '__ninja_graph_is tests' -l since -r -F -d 'Take commands as changed whose keys are not here'
complete -c ninja-graph -n '__ninja_graph_is tests' -l base -x -d 'With --since, a directory that keys do not name' \
    -a '(__fish_complete_directories)'
complete -c ninja-graph -n '__ninja_graph_is tests' -l format -x -d 'How the tests are written' -a 'lines ctest meson'
complete -c ninja-graph -n '__ninja_graph_is tests' -l why -d 'Write why each test is chosen, too'
complete -c ninja-graph -n '__ninja_graph_is tests' -l json -d 'An object of JSON for each test'
complete -c ninja-graph -n '__ninja_graph_is tests' -l unnamed -x \
    -d 'What becomes of tests that name no file of the build' -a skip
