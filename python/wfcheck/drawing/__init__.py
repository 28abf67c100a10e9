"""Pictures of complexes, maps, refutations, obstructions and tasks, as SVG or as one HTML page.

Nothing is proved of a picture. `draw` asks `wfcheck` about each text first, and draws what the program accepts."""
