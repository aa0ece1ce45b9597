"""The page that the staff of a desk work in; docs/PAGE.md describes it."""
