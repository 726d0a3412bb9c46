{ echo 'c:int'; seq 1000000 1149999; } >t.csv
