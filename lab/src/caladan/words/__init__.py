"""The words of a command line, read and refused as the programs' own words are."""
