# The deepest line, one sign more, two other spreads of as many signs, and a good line. Minus signs alone have a type, and an
# even number of them leaves the number.
for brackets in 0 1 2 31 32 63 64; do
    sign=
    [ $((brackets % 2)) -eq 0 ] || sign=-
    printf '%s\n' "{\"value\":${sign}1}" '{"error":"too-deep"}'
    printf '%s\n' "{\"value\":${sign}1}" "{\"value\":${sign}2147483647}" '{"items":[1,2]}'
    for _ in {1..3}; do
        printf '%s\n' '{"error":"type"}' '{"error":"too-deep"}' '{"error":"type"}' '{"error":"type"}' '{"items":[1,2]}'
    done
done
