"$vmemd" serve --connections 4096 127.0.0.1:0 /dev/stdin 2 2> /dev/null | sed "s/^\(listening 127.0.0.1:\)[1-9][0-9]*$/\1PORT/"
