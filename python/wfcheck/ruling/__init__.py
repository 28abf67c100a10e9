"""A decision map as few rules: what is asked of a view, and what is decided then. Found greedily, and proved nowhere."""
