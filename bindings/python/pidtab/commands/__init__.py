"""The programs beside `pidtab`, one module each with a `main`, and what they share."""
