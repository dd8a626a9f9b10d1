"$vmemd" serve --connections 8 127.0.0.1:0 /dev/stdin 1 > /dev/full
