"""What `./gate` does before and after the program runs. Nothing here decides on an order."""
