"""`xtc-docs`, a tool for the documents of a store, made with the client (docs/MANUAL.md, "Documents from the shell")."""
