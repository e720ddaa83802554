"""MAP octets: elements of BER, arguments of updates, and the components of TCAP messages."""
