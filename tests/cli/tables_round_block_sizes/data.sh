# Tables of these sizes in bytes: rows of five digits, and a last one of five to ten digits without a line feed.
digits=1234567890
for block in 4096 8192 16384 32768 65536 131072; do
    for size in $((block - 1)) "$block" $((block + 1)); do
        rows=$(((size - 11) / 6))
        last=${digits:0:$((size - 6 - 6 * rows))}
        { echo 'c:int'; seq 10000 $((9999 + rows)); printf '%s' "$last"; } >"t$size.csv"
        [ "$(stat -c %s "t$size.csv")" -eq "$size" ] || exit 1
    done
done
