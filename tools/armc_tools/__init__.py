"""What the tools armc-portfolio, armc-coverage, armc-explain, armc-walk, armc-properties and armc-export have in common. It uses the standard library of Python alone."""
