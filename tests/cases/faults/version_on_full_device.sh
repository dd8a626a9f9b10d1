exec "$vmemd" --version >/dev/full
