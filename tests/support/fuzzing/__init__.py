"""Replays of scripts of bad octets, and what they are compared with."""
