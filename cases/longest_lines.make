printf '\n#'; head -c 4095 /dev/zero | tr '\0' x; printf '\n\n#'; head -c 4095 /dev/zero | tr '\0' x
