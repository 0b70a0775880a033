repla
