# Holds back last lines of the form "N passed, M failed", to be sourced.

# Copies its input line by line, but for the last line, which it writes to the file.
all_but_last() {
    awk -v last="$1" 'NR > 1 { print line; fflush() } { line = $0 } END { print line > last }'
}

# Sets `passed` and `failed` by the line in the file. Any other line is printed, and is one failure.
read_counts() {
    local line
    line=$(<"$1")
    if [[ $line =~ ^([0-9]+)\ passed,\ ([0-9]+)\ failed$ ]]; then
        passed=${BASH_REMATCH[1]} failed=${BASH_REMATCH[2]}
        return
    fi
    [[ -z $line ]] || echo "$line"
    passed=0 failed=1
    return 1
}
