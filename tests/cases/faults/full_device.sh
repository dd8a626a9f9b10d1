exec "$vmemd" script >/dev/full
