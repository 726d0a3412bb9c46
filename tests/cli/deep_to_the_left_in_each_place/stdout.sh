for _ in {1..12}; do
    printf '%s\n' '{"error":"type"}' '{"error":"type"}' '{"items":[1,2]}'
done
printf '%s\n' '{"error":"too-deep"}' '{"error":"too-deep"}' '{"error":"too-deep"}' '{"items":[1,2]}'
