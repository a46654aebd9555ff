"""How wrong bodies and wrong definitions are tried."""
