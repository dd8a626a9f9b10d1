sleep 1 | { "$vmemd" serve 127.0.0.1:0 /dev/null 1; echo "status $?" >&2; } | sed -n "s/^listening .*/told/p;q"
