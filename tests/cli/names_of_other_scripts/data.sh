# The names of both files are the same letters, composed and decomposed.
printf 'c:int\n1\n' >$'\303\251.csv'
printf 'c:int\n2\n' >$'e\314\201.csv'
printf '_:int,\303\251:int,e\314\201:int,имя:int,列:int,x٣:int,a·b:int,𐐀:int,_1:int,ª:int\n0,1,2,3,4,5,6,7,8,9\n' >t.csv
