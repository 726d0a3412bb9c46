# Far more than is ever read: what is behind the limit stays where it is.
head -c 2000000 /dev/zero | tr '\0' '\n'
