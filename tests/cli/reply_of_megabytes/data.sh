{ echo 'c:int'; seq 1000000 1399999; } >t.csv
