t='{"error":"type"}'
printf '%s\n' '{"items":[3]}' "$t" '{"items":[1]}' "$t" '{"items":[1]}' "$t"
printf '%s\n' '{"items":[1]}' '{"items":[3]}'
printf '%s\n' '{"items":[1]}' "$t" '{"items":[1]}' "$t" '{"items":[1]}' "$t" "$t"
printf '%s\n' '{"items":[3]}' "$t"
