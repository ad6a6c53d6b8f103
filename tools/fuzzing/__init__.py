"""What tools/fuzz.py is made of: the files that it begins with, how it changes them, and what the program may answer."""
