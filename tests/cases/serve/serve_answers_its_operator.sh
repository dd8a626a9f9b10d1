{ printf "root m 0 8 1 best 0\nchild c m 1 best 0 0\n" | "$vmemd" serve 127.0.0.1:0 /dev/fd/3 2 3<&0 0<&4 2> /dev/null; } 4<&0 | sed "s/^\(listening 127.0.0.1:\)[1-9][0-9]*$/\1PORT/"
