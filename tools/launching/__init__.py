"""What tools/launch is made of: nodes of one run on the machines that there are."""
