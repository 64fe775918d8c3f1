"""What ./pnscript does beside the program, before and after a plan: catalogues from GSDML files, and pictures of plans."""
