# 6,000 statements: 20 that leave out more and more rows of the table, 300 times over.
for ((time = 0; time < 300; time++)); do
    printf 'run from x in t where x.c >= %s select x.c;\n' {2000000000..2000000019}
done
