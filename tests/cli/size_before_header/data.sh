# 16,777,217 bytes and no header.
truncate -s 16777217 t.csv
