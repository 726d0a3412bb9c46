# Two deep lines, one of 65 brackets, and a good line.
for _ in {1..12}; do
    printf '%s\n' '{"error":"type"}' '{"error":"type"}' '{"error":"too-deep"}' '{"items":[1,2]}'
done
