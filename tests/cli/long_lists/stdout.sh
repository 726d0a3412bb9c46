# Of what is within the limits, only the query of many `into` has a type, the sixteenth of the lists.
for list in {1..20}; do
    reply='{"error":"type"}'
    [ "$list" -ne 16 ] || reply='{"items":[{"c":1},{"c":2}]}'
    printf '%s\n' "$reply" '{"error":"too-deep"}' '{"items":[1,2]}'
done
