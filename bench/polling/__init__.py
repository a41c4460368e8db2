"""What bench/pollers measures: programs that poll a tree, each as its users start it."""
