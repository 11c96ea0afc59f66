"""Pictures of a device with what was seen on it, by Graphviz."""
