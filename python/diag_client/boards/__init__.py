"""Many test patterns of one board, and the readings of many boards: tables of them, and what explains them."""
