#!/usr/bin/env python3
"""Sends messages to a room (python/maproom/commands/client.py)."""
from maproom.commands.client import main

raise SystemExit(main())
