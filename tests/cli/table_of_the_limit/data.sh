# A file of 16,777,216 bytes: rows of a million zeros and a digit at the end, the last without a line feed.
{
    printf 'c:int'
    for digit in 1 2 3 4 5 6 7 8 9; do printf '\n'; head -c 1000000 /dev/zero | tr '\0' 0; printf '%s' "$digit"; done
    printf '\n'; head -c 7777191 /dev/zero | tr '\0' 0; printf 7
} >t.csv
[ "$(stat -c %s t.csv)" -eq 16777216 ] || exit 1
