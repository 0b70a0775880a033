call
