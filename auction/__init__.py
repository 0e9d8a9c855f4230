"""The command `auction`: what an operator, a bidder's clerk, or an auditor runs."""
