"""What nodes send each other, as octets of packets: TCAP messages, dialogues and whole captures."""
