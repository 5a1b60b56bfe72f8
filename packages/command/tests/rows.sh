# What the rows of this folder share. A line of standard error is shown after those of standard output, and begins with `! `.
target-lexicon() {
    command target-lexicon "$@" 2> "$CRAMTMP/errors"
    local status=$?
    sed 's/^/! /' "$CRAMTMP/errors"
    return $status
}

# same TABLE FUNCTION: FUNCTION prints each row of the table, as it is called with the words between its bars; another row is shown
same() {
    while IFS= read -r row; do
        local words said
        IFS='|' read -ra words <<< "$row"
        said=$("$2" "${words[@]}")
        [ "$said" = "$row" ] || echo "$row: $said"
    done < "$1"
}
