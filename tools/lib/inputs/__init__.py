"""Inputs: how worlds, traces and texts are read and judged, what their commands do to a graph of objects, and how inputs are
drawn and made smaller."""
