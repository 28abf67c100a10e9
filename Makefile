# `demo`, `install`, `page`, `dist`, `deb` and `wheel` need Python 3 or a shell alone. The others need the toolchain's command `rt` on the
# path as well, and `bench` g++ and rustc. Where there is a C compiler, `test` also has calls of the operating system fail in turn.

.PHONY: demo build verifier wasm page quick test definitions bench pictures install uninstall dist deb wheel release

# where `make install` installs, and a folder that stands before it, as for a package
PREFIX = /usr/local
DESTDIR =

# Four questions that the field knows the answers to, or with TASK=FILE ROUNDS=R a task of one's own. Where `make build` hasn't
# left a program, the released one is asked. make itself ends with 2 for each status of the program but 0 (no map is 1):
# `tools/demo FILE R` passes it on.
demo:
	@tools/demo $(if $(TASK),"$(TASK)" "$(ROUNDS)")

# The commands, their pages, completions, gallery and examples, below PREFIX. It builds nothing: without bin/ it takes the released programs.
# Files that are there and were not installed so are named, and nothing is installed; FORCE=1 writes over them.
install:
	@python3 -B packaging/install --prefix "$(PREFIX)" --destdir "$(DESTDIR)" $(if $(FORCE),--force)

# Removes what `make install` installed there, but for files that were changed since.
uninstall:
	@python3 -B packaging/install --prefix "$(PREFIX)" --destdir "$(DESTDIR)" --remove

# The archive of this version, in dist/, and the Debian package.
dist:
	@python3 -B packaging/dist

deb:
	@python3 -B packaging/deb

# A wheel of the Python module, its commands and the programs, in dist/, for pip on Linux on x86-64. It needs setuptools.
wheel:
	@python3 -B packaging/wheel

# Renews release/ from bin/, once for each version: CONTRIBUTING.md says when. COMMIT=.. names an earlier commit with the same crates.
release:
	@python3 -B packaging/release $(if $(COMMIT),--commit "$(COMMIT)")

# The proved program, at bin/wfcheck. Whatever it stands on is proved first, several crates side by side. It may be stopped: called again,
# it goes on there.
build:
	@checks/build

# The checker alone, at bin/wfverify: what it stands on is proved first, about half of what bin/wfcheck stands on.
verifier:
	@checks/build wfverify

# The proved program as a WebAssembly module, at bin/wfcheck.wasm, after `make build`. Some minutes.
wasm:
	@packaging/wasm

# The page that anybody opens, at dist/wfcheck.html: the module of release/ and the sources of page/ in one file. MODULE=FILE takes another.
page:
	@python3 -B packaging/page $(if $(MODULE),--module "$(MODULE)")

# What changed since this last passed is proved over the work that is kept, and the tests that name it are run: no verdict.
# The first time it proves every crate.
quick:
	checks/quick

# Everything is proved, the edits that must fail are tried, and the tests and the rows of command lines are run. Some kits take over
# what passed on this machine over the same files.
test:
	checks/gate

# Mutates the definitions one by one; an example or a law has to refuse each. Some ten minutes.
definitions:
	checks/mutate

# Times the kernels, and the program beside a plain C++ of the same search. It needs a C++ compiler.
bench:
	bench/run
	bench/search

# Makes the pictures of docs/pictures anew, by the commands of its page. It needs bin/wfcheck.
pictures:
	docs/make_pictures.py
