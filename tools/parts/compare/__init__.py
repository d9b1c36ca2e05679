"""What tools/compare does: it reads what was counted twice, and compares it."""
