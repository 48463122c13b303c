"""The program `wire`: a link table of what configurations and neighbours say."""
