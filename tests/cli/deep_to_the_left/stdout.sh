for _ in {1..15}; do
    printf '%s\n' '{"error":"type"}' '{"items":[1,2]}'
done
