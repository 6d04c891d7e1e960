"""What is published of an auction: figures, and sentences, tables, files and a page of them."""
