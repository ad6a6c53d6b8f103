"""Names of C++ with the spelling that gdb has for them, and that ours has."""
