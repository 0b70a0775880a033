walk --lines 0 --schedule
