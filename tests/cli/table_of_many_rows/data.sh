# 7,000 rows of two columns: 1 to 7000, and -7 to -49000.
{ echo 'c:int,d:int'; paste -d , <(seq 7000) <(seq -7 -7 -49000); } >t.csv
