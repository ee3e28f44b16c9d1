// Stands in for a module that is not in the text. Nothing of it is called.
