printf '{"items":[%s]}\n' 1,2 1,2 1,2 2 1 2 1,2 1,2 1 2
for _ in {1..10}; do printf '%s\n' '{"error":"too-deep"}'; done
