"""What all parts share: how a command refuses, reads and writes, and text for pages."""
