"""Records what the clients of a store see."""
