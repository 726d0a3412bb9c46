replies=$(for first in {2000000000..2000000019}; do printf '{"items":[%s]}\n' "$(seq -s , "$first" 2000000034)"; done)
for ((time = 0; time < 300; time++)); do printf '%s\n' "$replies"; done
