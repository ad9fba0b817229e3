"""The parts of docs/trace."""
