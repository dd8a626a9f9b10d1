"$vmemd" serve --connections 1 --grace 1 127.0.0.1:0 /dev/stdin 64 > /dev/null
