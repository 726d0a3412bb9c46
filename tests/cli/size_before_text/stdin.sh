printf '\377\n'; head -c 65537 /dev/zero | tr '\0' ' '
