"""The shared library of the installation that this package is a part of: ./install writes its path here. Elsewhere there is none."""
LIBRARY = ""
