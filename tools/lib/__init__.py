"""What tools/, tests/, bench/ and features/ share, a module for each subject."""
