echo unit buffer 1; head -c 4096 /dev/zero | tr '\0' x
