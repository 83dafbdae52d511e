"""The parts of scripts/planted.py, which tries wrong bodies many in one check."""
