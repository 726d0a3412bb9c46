# The deepest line, one sign more on the innermost level, and a good line.
for _ in {1..21}; do
    printf '%s\n' '{"error":"type"}' '{"error":"too-deep"}' '{"items":[1,2]}'
done
