# A byte order mark and line ends: 16,777,216 bytes, and one more.
mkdir limit more
for file in limit/16777213 more/16777214; do
    { printf '\357\273\277'; head -c "${file#*/}" /dev/zero | tr '\0' '\n'; } >"${file%/*}/t.csv"
done
[ "$(stat -c %s limit/t.csv more/t.csv | tr '\n' ' ')" = '16777216 16777217 ' ] || exit 1
