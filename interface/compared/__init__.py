"""What is compared with the tables and not written: for each kind of source a module, whose `differences` says what differs, with file and line."""
