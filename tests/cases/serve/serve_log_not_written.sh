"$vmemd" serve 127.0.0.1:0 /dev/null 1 2> /dev/full > /dev/null
