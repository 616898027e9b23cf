"""The page that holds a run and draws it."""
