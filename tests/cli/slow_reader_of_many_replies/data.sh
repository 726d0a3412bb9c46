{ echo 'c:int'; seq 2000000000 2000000034; } >t.csv
