"""Tools for planners: plan images as text, listings and pictures."""
