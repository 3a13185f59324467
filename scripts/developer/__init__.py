"""What a checkout alone has: the build, the edits, the assembler of the examples, try and install."""
