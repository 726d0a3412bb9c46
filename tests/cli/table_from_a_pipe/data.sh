# A table that comes in pieces: what one read gives is not the whole of it.
mkfifo t.csv
timeout 20 bash -c "{ printf 'c:int\n1\n2'; sleep 0.1; printf '3\n'; sleep 0.1; printf '4\n'; } >t.csv" 2>/dev/null &
