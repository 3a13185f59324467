"""What makes one form of another, and says why the program refuses one: a module for each command."""
