# a reply of all its rows has no room in the pipe
{ echo c:int; seq 9999; } >t.csv
