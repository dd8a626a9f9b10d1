exec "$vmemd" script </
