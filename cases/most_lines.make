yes '' | head -n 67108864
