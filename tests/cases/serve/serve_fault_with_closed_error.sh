"$vmemd" serve nowhere /dev/stdin 1 2>&- 
