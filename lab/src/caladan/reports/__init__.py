"""A run as one page of HTML to click through: what was where, and why."""
