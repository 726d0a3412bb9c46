digits=1234567890
for block in 4096 8192 16384 32768 65536 131072; do
    for size in $((block - 1)) "$block" $((block + 1)); do
        rows=$(((size - 11) / 6))
        last=${digits:0:$((size - 6 - 6 * rows))}
        printf '{"items":[%s,%s]}\n' "$(seq -s , 10000 $((9999 + rows)))" "$last"
    done
done
