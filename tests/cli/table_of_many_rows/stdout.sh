printf '{"items":[%s]}\n' "$(seq -s , 7000)" "$(seq -s , -14 -7 -49000)"
