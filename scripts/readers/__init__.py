"""One reader of each form: jobs, object decks, listings, reports, and what is found in them."""
