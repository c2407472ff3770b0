"""Modules that the scripts of tests/ and bench/ share. They need Python 3.9 or later, and its standard library.

Python puts the folder of a script on its path. So each folder of scripts has a file `lib.py` that loads this package in
its place, and a script imports `lib.cases` without a preamble. An import of any of these modules puts the package
maproom on the path, too.

A script defines its cases, and ends with `main(__doc__)`:

    cases.py               the cases of a script, its options, and the report
    programs.py            the results of commands
    texts.py               files of runs, with the output of each input line
    messages.py            messages, replies and rows of maps as values and as lines
    failed_allocations.py  runs in which one allocation fails
    preloaded.py           the libraries of tests/preload, which are loaded before a program

For measurements:

    workloads.py           messages that make maps and edit them
    measuring.py           the time, the memory and the allocations of runs

For servers:

    serving.py             a server that a script starts, and a client's session with its map
    websocket.py           a client that sends any frames, also forbidden ones
    talk.py                the messages of a session, in short forms
    mappers.py             mappers who edit a map at random
    answers.py             the replies that an author can get
    proxy.py               a proxy of a server that loses replies
    faulty.py              a server in which a system call or an allocation fails
    others.py              software of other projects, such as browsers, if it is installed
    system_python.py       the Python of the system, which has the packages of Debian

For clients, editors and the map page:

    fake_rooms.py          a room in threads of the script, which can fail
    editor_rooms.py        rooms for editors, and the program clients/osm_api
    josm.py                a story of JOSM's own classes
    josm_live.py           JOSM's own classes with the plugin in clients/josm
    josm_window.py         JOSM's window with this plugin
    browser.py             pages in Chromium
    page_files.py          a web server for the map page
    map_pages.py           the map page in such a page
    keepers.py             the keeper
    followers.py           the replicator, and a web server for those who follow it
    postgres.py            a server of PostgreSQL with PostGIS

For authors who edit rooms at random, each with some client:

    authors.py             what all of them have in common, and when they rest
    library_authors.py     those who use the library for Python
    editor_authors.py      those who use an editor over the OpenStreetMap API
    page_authors.py        those who use the map page
    journals.py            the entries of a room over several runs of its server

For tests/run and the pages of the repository:

    parts.py               the parts of tests/run, by subject
    crates.py              the crates of crates.txt
    crates_drawing.py      their drawing, docs/crates.svg
    repository.py          the files of the repository
    pages.py               the blocks of pages
    sentences.py           the sentences of pages
"""
import os
import sys

TOP = os.path.dirname(os.path.dirname(os.path.dirname(os.path.realpath(__file__))))

# The folder of the package maproom.
PACKAGE = f"{TOP}/clients/python"
sys.path.insert(1, PACKAGE)
