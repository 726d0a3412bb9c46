for value in 14235 -14235 7 7 7 2147483647; do printf '{"items":[%s,%s]}\n' "$value" "$value"; done
printf '%s\n' '{"fault":"Overflow","items":[]}'
