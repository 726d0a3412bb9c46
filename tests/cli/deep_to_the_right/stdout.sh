# The deepest line, one step more, and a good line.
for _ in {1..18}; do
    printf '%s\n' '{"error":"type"}' '{"error":"too-deep"}' '{"items":[1,2]}'
done
