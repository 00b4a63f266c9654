"""What the tests of this folder import: nothing of it is run by itself."""
