"""What `./dine explain` and `./show` do, as far as no crate does it."""
