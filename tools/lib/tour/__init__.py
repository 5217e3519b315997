"""The lessons of the tour, its exercises, charts and pages."""
