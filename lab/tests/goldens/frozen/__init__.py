"""Cases of `sweep`, `compare` and `timeline`, and what the program answered to them."""
