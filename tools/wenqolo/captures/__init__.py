"""Captures as tshark reads them: messages, dialogues, and the script that they make."""
