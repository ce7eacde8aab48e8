"""A day of winds on the library, as programs and text."""
