"""The atlas: tables of small tasks with what the program answers to each, for every number of rounds. `tools/atlas` writes them into
gallery/atlas, and `checks/atlas` decides lines of them again."""
