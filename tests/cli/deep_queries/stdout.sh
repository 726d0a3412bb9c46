# The deepest line, one sign more, one bracket more, and a good line.
for _ in {1..15}; do
    printf '%s\n' '{"error":"type"}'
    printf '%s\n' '{"error":"too-deep"}' '{"error":"too-deep"}'
    printf '%s\n' '{"items":[1,2]}'
done
