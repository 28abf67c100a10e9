"""The tests of the module. At the top of the repository: `python3 -m unittest discover -s python/tests -t python`.

What the module reads of the program's texts is compared with oracle/second_opinion.py. What needs the program is left out where there is
none."""
