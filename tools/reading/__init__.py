"""An independent reading of what gdbix promises, written from docs/DEFINITIONS.md, docs/DECISIONS.md and the standards, and not
from the program.  Its worth is that it shares nothing with the program: where the two differ, one of them is wrong."""
