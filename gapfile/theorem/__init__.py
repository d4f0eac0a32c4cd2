"""The figure of a folder as a theorem for Coq: for whoever trusts neither gapcheck's proof nor gapfile."""
