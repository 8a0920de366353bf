yes '' | head -n 67108865
