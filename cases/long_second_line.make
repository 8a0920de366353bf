printf '\n#'; head -c 4096 /dev/zero | tr '\0' x; echo
