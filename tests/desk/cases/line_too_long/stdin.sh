head -c 65537 /dev/zero | tr '\0' 'a'
printf '\nrun 1\n'
head -c 200000 /dev/zero | tr '\0' 'c'
printf '\nrun 2'
