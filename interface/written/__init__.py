"""What is written from the tables: for each language a module, whose PARTS are functions by their files and the names of the parts."""
