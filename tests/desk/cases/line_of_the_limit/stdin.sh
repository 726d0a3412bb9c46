# as many bytes as a line may have, with the `;` and, as it was typed, without it
printf 'run 1; //'
head -c 65527 /dev/zero | tr '\0' 'b'
printf '\nrun 2 //'
head -c 65526 /dev/zero | tr '\0' 'b'
# one more: no room for the `;` that is added behind a line feed
printf '\nrun 3 //'
head -c 65527 /dev/zero | tr '\0' 'b'
