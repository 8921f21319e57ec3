"""What markring-heap does: it reads images of nodes and follows the references between their objects."""
