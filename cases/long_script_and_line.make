yes "$(head -c 4095 /dev/zero | tr '\0' '#')" | head -n 16383; head -c 4097 /dev/zero | tr '\0' '#'
