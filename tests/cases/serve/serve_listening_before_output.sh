"$vmemd" serve nowhere /dev/stdin 1 > /dev/full
