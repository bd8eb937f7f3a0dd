"""What times the program and the commands around it, counts what they take, or makes their calls fail."""
