yes "$(head -c 4095 /dev/zero | tr '\0' '#')" | head -n 16384
