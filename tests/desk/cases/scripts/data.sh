printf 'run 6\n\xff\nrun 7\n' >bytes.lq
# 16 lines of 65,536 bytes each are as many bytes as a script may have.
for _ in {1..16}; do
    head -c 65535 /dev/zero | tr '\0' ' '
    echo
done >limit.lq
{ cat limit.lq && echo; } >long.lq
mkdir folder
