"""The check of a decoder of MAP arguments against what wrote them, against a model of its rules and against tshark."""
