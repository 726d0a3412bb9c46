# The file is there, under a name that is no UTF-8.
printf 'c:int\n1\n' >$'t\377.csv'
