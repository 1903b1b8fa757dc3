# make install PREFIX=..: the program, the tools (vrptw-plan and its like), the module for Python, the manual page and
# the completions; release/install tells where. make uninstall PREFIX=.. takes them away. Nothing is built.
PREFIX = /usr/local
DESTDIR =
PYTHON = python3

.PHONY: help install uninstall
help:
	@sed -n 's/^# //p' Makefile

install:
	$(PYTHON) release/install '$(PREFIX)' --into '$(DESTDIR)'

uninstall:
	$(PYTHON) release/install '$(PREFIX)' --into '$(DESTDIR)' --remove
