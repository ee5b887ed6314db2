"""Files of the repository that are made and not written: values, tables, a sample and a picture."""
