# Sourced by the scripts tools/try-*.sh: what is right is counted, what is wrong is shown too. `name` says what is tried.
right=0 wrong=0

# compares one thing of a run
is() { # WHAT WANTED GOT
    if [ "$2" = "$3" ]; then right=$((right + 1)); return; fi
    wrong=$((wrong + 1))
    printf 'WRONG %s: %s\n  wanted: %q\n  got:    %q\n' "$name" "$1" "$2" "$3"
}

# the last line, and the status
closing() {
    echo "$right right, $wrong wrong"
    [ "$wrong" -eq 0 ]
}
