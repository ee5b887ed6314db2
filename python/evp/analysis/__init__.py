"""What an inventory office asks of several sheets: what changed between two, two submissions of a series side by side,
how much the uncertainty of the inputs matters, and sums over regions. Every mass is a report of the library."""
