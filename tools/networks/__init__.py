"""What tools/network is made of: a module for each idea."""
