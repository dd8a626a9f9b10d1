exec "$vmemd" --help >/dev/full
