#!/usr/bin/env python3
"""Writes the pages and files that are made from the sources and from the program's help.

usage: tools/write_pages.py

docs/STATEMENT.md, the tables of docs/dev/CONTRACTS.md, the crate graph in docs/dev/ARCHITECTURE.md
and its picture, the man page, the completions, and the exit statuses of docs/USE.md. `make
statement` calls it after a build. tests/written.py compares each with what stands there.
"""
import architecture
import contracts
import manual
import statement

MAKERS = [statement, contracts, architecture, manual]


def made():
    """Each file that is made, by its path."""
    return {path: text for maker in MAKERS for path, text in maker.made().items()}


def main():
    for path, text in made().items():
        path.write_text(text)


if __name__ == "__main__":
    main()
