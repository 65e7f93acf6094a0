class Cup {}
