# 16,777,216 bytes and no header.
truncate -s 16777216 t.csv
