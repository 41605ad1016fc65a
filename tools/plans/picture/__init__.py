"""Plans as SVG: lanes over the cycle, messages between them, holds, and the row that an answer names."""
