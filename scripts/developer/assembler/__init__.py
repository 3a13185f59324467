"""A small assembler, which makes the object decks and the listings of the examples. It is no part of the product."""
