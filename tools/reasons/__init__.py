"""Why a text is refused: what tools/why.py and tools/faults.py are made of. What they say is asked of the program, text by text."""
