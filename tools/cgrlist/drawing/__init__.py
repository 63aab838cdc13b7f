"""Plans and routes drawn in time."""
