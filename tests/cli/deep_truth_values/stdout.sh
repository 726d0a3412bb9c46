# Each row has the value; an even number of `!` leaves it.
for value in true false true true false true; do printf '{"items":[%s,%s]}\n' "$value" "$value"; done
for value in true false false true false true true false; do printf '{"items":[%s,%s]}\n' "$value" "$value"; done
printf '%s\n' '{"items":[1]}'
