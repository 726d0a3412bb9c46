printf 'c:int\none\n' >u.csv
