ln -s /dev/zero t.csv
