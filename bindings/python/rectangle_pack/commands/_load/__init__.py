"""load: a packing list into containers or lorries."""
