"""The figures of documents that explain a concept. Each is a module with a function `draw`, which returns the SVG image that
tools/figures compares with docs/figures/NAME.svg."""
