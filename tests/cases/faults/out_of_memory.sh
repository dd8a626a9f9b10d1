set -- $(seq 100000); ulimit -v 20000; exec "$vmemd" script "$@"
