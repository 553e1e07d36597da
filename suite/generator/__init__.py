"""The generator of the suite: `page` writes services, `case` says what is fed and captured, `families` has the rules."""
