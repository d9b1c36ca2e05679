"""What tools/plan does: it finds the fewest sets that take all of some events."""
